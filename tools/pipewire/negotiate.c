/* Lets a running PipeWire negotiate pairs of formats: for each pair two nodes of this client with
 * a port each (pw_filter: nothing converts, so the daemon has the EnumFormat as it is), and a link
 * of the daemon's link-factory between them.
 *
 * Standard input has for each pair two PODs, each after its size in 4 bytes: the output's and the
 * input's. For each pair a line is put, "STATE NODE NODE ERROR": the state of the link (-1 failed,
 * 3 and more: a format was agreed on), the ids of both nodes, and what the daemon says; it goes on
 * after one more byte of standard input, so that pw-dump can be asked meanwhile.
 *
 * cc negotiate.c $(pkg-config --cflags --libs libpipewire-0.3)
 */
#include <stdio.h>
#include <string.h>
#include <unistd.h>
#include <pipewire/filter.h>
#include <pipewire/pipewire.h>
#include <spa/param/buffers.h>
#include <spa/pod/builder.h>

#define PATIENCE_MS 2000
#define ROOM 4096
#define BUFFER_BYTES (1 << 18)

static struct pw_main_loop *loop;
static struct pw_core *core;

struct side {
	struct pw_filter *node;
	struct spa_hook hook;
	uint8_t format[ROOM];
	enum pw_filter_state state;
};

struct joint {
	struct pw_proxy *link;
	struct spa_hook hook;
	enum pw_link_state state;
	char error[256];
};

static void on_node_state(void *data, enum pw_filter_state old, enum pw_filter_state now,
		const char *error)
{
	((struct side *)data)->state = now;
}

static const struct pw_filter_events node_events = {
	PW_VERSION_FILTER_EVENTS, .state_changed = on_node_state,
};

static void on_link_info(void *data, const struct pw_link_info *info)
{
	struct joint *joint = data;
	joint->state = info->state;
	snprintf(joint->error, sizeof(joint->error), "%s", info->error ? info->error : "");
}

static const struct pw_link_events link_events = {
	PW_VERSION_LINK_EVENTS, .info = on_link_info,
};

static void turn(void)
{
	pw_loop_iterate(pw_main_loop_get_loop(loop), 10);
}

static void open_side(struct side *side, const char *name, enum pw_direction direction)
{
	uint8_t room[256];
	struct spa_pod_builder builder = SPA_POD_BUILDER_INIT(room, sizeof(room));
	/* room for a quantum of any of the formats */
	const struct spa_pod *params[] = { (const struct spa_pod *)side->format,
		spa_pod_builder_add_object(&builder, SPA_TYPE_OBJECT_ParamBuffers, SPA_PARAM_Buffers,
			SPA_PARAM_BUFFERS_size, SPA_POD_Int(BUFFER_BYTES),
			SPA_PARAM_BUFFERS_stride, SPA_POD_Int(4)) };

	side->state = PW_FILTER_STATE_UNCONNECTED;
	side->node = pw_filter_new(core, name, pw_properties_new(PW_KEY_NODE_NAME, name, NULL));
	pw_filter_add_listener(side->node, &side->hook, &node_events, side);
	pw_filter_add_port(side->node, direction, PW_FILTER_PORT_FLAG_MAP_BUFFERS, sizeof(void *),
			pw_properties_new(PW_KEY_PORT_NAME, name, NULL), params, 2);
	pw_filter_connect(side->node, 0, NULL, 0);
	for (int ms = 0; ms < PATIENCE_MS && side->state < PW_FILTER_STATE_PAUSED &&
			side->state != PW_FILTER_STATE_ERROR; ms += 10)
		turn();
}

static void join(struct joint *joint, uint32_t output, uint32_t input)
{
	struct pw_properties *ends = pw_properties_new(NULL, NULL);

	memset(joint, 0, sizeof(*joint));
	pw_properties_setf(ends, PW_KEY_LINK_OUTPUT_NODE, "%u", output);
	pw_properties_setf(ends, PW_KEY_LINK_INPUT_NODE, "%u", input);
	joint->link = pw_core_create_object(core, "link-factory", PW_TYPE_INTERFACE_Link,
			PW_VERSION_LINK, &ends->dict, 0);
	pw_properties_free(ends);
	pw_proxy_add_object_listener(joint->link, &joint->hook, &link_events, joint);
	for (int ms = 0; ms < PATIENCE_MS && joint->state < PW_LINK_STATE_ALLOCATING &&
			joint->state != PW_LINK_STATE_ERROR; ms += 10)
		turn();
}

static int read_format(struct side *side)
{
	uint32_t size;

	return fread(&size, sizeof(size), 1, stdin) == 1 && size <= ROOM &&
		fread(side->format, 1, size, stdin) == size;
}

int main(int argc, char **argv)
{
	struct side output, input;
	struct joint joint;

	pw_init(&argc, &argv);
	loop = pw_main_loop_new(NULL);
	core = pw_context_connect(pw_context_new(pw_main_loop_get_loop(loop), NULL, 0), NULL, 0);
	if (core == NULL) {
		perror("no PipeWire");
		return 1;
	}
	while (read_format(&output) && read_format(&input)) {
		open_side(&output, "output", PW_DIRECTION_OUTPUT);
		open_side(&input, "input", PW_DIRECTION_INPUT);
		join(&joint, pw_filter_get_node_id(output.node), pw_filter_get_node_id(input.node));
		for (int ms = 0; ms < 50; ms += 10)
			turn();
		printf("%d %u %u %s\n", joint.state, pw_filter_get_node_id(output.node),
				pw_filter_get_node_id(input.node), joint.error);
		fflush(stdout);
		getchar();
		pw_proxy_destroy(joint.link);
		pw_filter_destroy(output.node);
		pw_filter_destroy(input.node);
		turn();
	}
	return 0;
}
