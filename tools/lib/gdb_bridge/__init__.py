"""A run in gdb: gdb's remote protocol on one side, a session of `hubris live` on the other. tools/gdb starts it.

From the bottom up: refusal, packets, thumb, answers, places, placed_elf, assembly_elf, application, live, cursor, searches, words,
steps, documents, monitor, server, command. `thumb`, `answers` and the ELFs are pure; a session reads and moves by `cursor` alone."""
