"""The groups that the gate asks, in their order; the long run asks them too."""
import causes
import dumps
import faults
import graphs
import long_texts
import messages
import notes
import parts
import prefixes
import random_formats
import randoms
import real_files
import sequences
import soak
import statuses
import stores
import threads
import ticks
import traces
import words

GROUPS = [statuses.each, statuses.memory, words.odd_words, words.no_text, words.helps,
          causes.named, causes.scripts_at_fault, causes.files, causes.lists_and_texts,
          causes.limits, causes.parts,
          messages.sentences, faults.lines, faults.once, notes.links, notes.drawn, notes.sinks,
          notes.others, notes.once,
          stores.sizes, stores.loads, stores.great, long_texts.texts, long_texts.lists,
          real_files.folders, real_files.permissions, real_files.devices, real_files.full_output,
          real_files.pipes, real_files.fifos, real_files.symbolic_links, real_files.kept,
          threads.refused_by_the_system, threads.refused_in_turn, threads.started, threads.running,
          ticks.ticks, soak.numbers, parts.six, parts.drawn,
          prefixes.wave_files, prefixes.pods, prefixes.deep,
          randoms.waves, randoms.pods, randoms.scripts, randoms.others, dumps.texts,
          dumps.wrong_texts, random_formats.filters, sequences.sequences, graphs.graphs,
          traces.traces]
