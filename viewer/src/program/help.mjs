// The texts of the help: those of `run` and `audit` are the program's own, to the byte.

export const TOP_USAGE = "console <COMMAND>";
export const RUN_USAGE = `console run [OPTIONS] --rules <RULES> --nodes <N> [SCRIPT]
       console run [OPTIONS] --from <FILE> [SCRIPT]`;
export const AUDIT_USAGE = "console audit [FILE]";

export const TOP_HELP = `Keeps a maximal matching on a changing network by self-stabilising rules, and
writes a numbered transcript of every event and its reply.

Usage: console <COMMAND>

Commands:
  run    Runs a script and writes its transcript.
  audit  Judges a transcript and prints one line.
  help   Print this message or the help of the given subcommand(s)

Options:
  -h, --help     Print help
  -V, --version  Print version

Here \`console\` is \`node rudekpi.mjs\`, on any system. The program console, for
Linux on x86-64, also has picture, epochs and storm.

Examples:
  node rudekpi.mjs run --rules hh --nodes 4 script > transcript
  node rudekpi.mjs audit transcript
  node rudekpi.mjs help run
`;

export const RUN_HELP = `Runs a script and writes its transcript.

Usage: console run [OPTIONS] --rules <RULES> --nodes <N> [SCRIPT]
       console run [OPTIONS] --from <FILE> [SCRIPT]

Arguments:
  [SCRIPT]  The file of the script; default: -, standard input

Options:
      --rules <RULES>  Hsu and Huang's, or Manne's [possible values: hh, manne]
      --nodes <N>      The capacity: nodes are named 1 to N; at most 65535
      --present <P>    Nodes 1 to P are present at the start; default: all
      --workers <K>    Up to K workers judge a step; 1 to 64 [default: 1]
      --from <FILE>    Go on where the run of a transcript or a base ended
  -h, --help           Print help

Under hh one enabled node moves in a step, under manne any set of them. Up to K
workers judge a step: one for each 16384 of its nodes, so a single one below
32768. The number of workers does not change the transcript.

The entries of all whole lines are written before more input is read. So a
person or a program at the other end of a pipe can read the replies and then
choose, and tee or tail -f shows a long run as it goes.

With --from the rules, the nodes and their states come from the end of FILE, a
transcript or a base alone, and the output begins with a base. FILE with the
output behind it is one transcript. If audit refuses FILE, nothing is run.

Commands of a script, one per line; A and B are names of nodes:
  link A B      adds an edge            unlink A B    removes it
  point A B     A's pointer becomes B   point A -     A's pointer becomes null
  flag A 1      sets A's married flag   flag A 0      clears it
  join A        A becomes present       leave A       A leaves with its edges
  step A B>A    moves the chosen nodes at once; B is to point at A
  show A        where A points          enabled       the enabled nodes' rules
  matching      the pairs               status        counts, charge and spent
  drive S K     takes at most K steps of a daemon with the seed S, until no node
                is enabled
  scramble S K  changes up to K registers, drawn with the seed S
  checkpoint    writes the state as a base, from which a transcript may begin

Examples:
  console run --rules manne --nodes 4 script > transcript
  console run --rules manne --nodes 60000 --workers 4 script > transcript
  console run --rules hh --nodes 9 --present 4 script > transcript
  printf 'link 1 2\\nstep 1\\nstep 2\\n' | console run --rules hh --nodes 2
  console run --from transcript more > rest; cat transcript rest > whole

Exit status:
  0  the whole script was run
  1  the transcript of --from is refused
  2  bad words, a P above N (! bad present), or a line that is not a command
  3  a read or a write failed, or a file cannot be opened
  4  memory ran out, or the log is full
`;

export const AUDIT_HELP = `Judges a transcript and prints one line.

Usage: console audit [FILE]

Arguments:
  [FILE]  The file of the transcript; default: -, standard input

Options:
  -h, --help  Print help

The transcript is accepted if it is the text of a run of the rules, with any
allowed targets, from the start or from the base of a checkpoint. Each later
base must be that of the state reached. Otherwise the first wrong line is named,
with the first of these that is wrong: its form, its number, its reply.

Examples:
  console audit transcript
  console run --rules hh --nodes 4 script | console audit

Exit status:
  0  accepted
  1  refused
  2  bad words
  3  a read or a write failed, or FILE cannot be opened
  4  memory ran out
`;
