/* gcc spa_pod_filter.c $(pkg-config --cflags libspa-0.2) -o spa_pod_filter : docs/spa_pod_filter.md. */
#include <stdio.h>
#include <spa/param/audio/format.h>
#include <spa/pod/builder.h>
#include <spa/pod/filter.h>

static void show(const char *what, const struct spa_pod *a, const struct spa_pod *b)
{
	uint8_t space[1024];
	struct spa_pod_builder to = SPA_POD_BUILDER_INIT(space, sizeof(space));
	struct spa_pod *both = NULL;
	int res = spa_pod_filter(&to, &both, a, b);
	const struct spa_pod_prop *rate =
		res < 0 ? NULL : spa_pod_find_prop(both, NULL, SPA_FORMAT_AUDIO_rate);
	uint32_t count = 0, kind = 0, i;
	printf("%s: result %d", what, res);
	if (rate) {
		const struct spa_pod *values = spa_pod_get_values(&rate->value, &count, &kind);
		printf(", choice %u:", kind);
		for (i = 0; i < count; i++)
			printf(" %d", ((const int32_t *)SPA_POD_BODY_CONST(values))[i]);
	}
	printf("\n");
}

#define RATE(value) spa_pod_builder_add_object(&b, SPA_TYPE_OBJECT_Format, \
	SPA_PARAM_EnumFormat, SPA_FORMAT_AUDIO_rate, value)

int main(void)
{
	uint8_t space[4096];
	struct spa_pod_builder b = SPA_POD_BUILDER_INIT(space, sizeof(space));
	const struct spa_pod *step = RATE(SPA_POD_CHOICE_STEP_Int(48000, 8000, 96000, 8000));
	const struct spa_pod *two = RATE(SPA_POD_CHOICE_ENUM_Int(3, 44100, 44100, 48000));
	const struct spa_pod *high = RATE(SPA_POD_CHOICE_RANGE_Int(96000, 64000, 192000));
	const struct spa_pod *low = RATE(SPA_POD_CHOICE_RANGE_Int(44100, 8000, 48000));
	show("a step and two alternatives", step, two);
	show("two alternatives and a step", two, step);
	show("ranges that cross", high, low);
}
