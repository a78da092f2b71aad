"""The command mvtgate-check: judges files, folders and MBTiles files, and says what it found to people, scripts and CI servers.

The words name pieces of work (`sources`, `pieces`). Each piece is read and judged in this process or another one (`judging`,
`processes`), and each tile has an answer (`answers`), in the order of the words. Answers go to lines on standard output (`lines`),
and to reports (`junit`, `sarif`).
"""
