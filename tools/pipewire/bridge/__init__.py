"""From a real PipeWire to pipegraph: what pw-dump and pw-profiler print, in pipegraph's texts.

Nothing here judges but `blame`, by statuses, and `judge`, by the programs. `dump` reads, and `log`,
with `profiler` and `profiler_json` for its lines; `words` parts a tool's words. `joining`, `steps`,
`wires` and `engine` say what of a graph the engine can have; `names` and `script` write it.
`ordering` makes a cycle into events, and `history` the cycles of a log. `blame` says who made an
xrun, and `perfetto` stores the cycles. `picking` finds a format, and `pods` makes a text of it with
the numbers of `spa`; `no_link` compares two, and `spa_filter` says what a daemon makes of them.
`daemon`, `scenes` and `trimming` record anew, `pairs` and `encoding` for formats.
"""
