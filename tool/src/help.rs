//! What --help prints. Every line of an example works as printed, in the order in which they stand.

pub const VERSION: &str = concat!("durpaxeta ", env!("CARGO_PKG_VERSION"), "\n");

pub const GENERAL: &str = r#"durpaxeta: stored tables of optional and variable-length cells

  durpaxeta show         prints a stored table as a worksheet, one cell a line, or as JSON
  durpaxeta write        makes a stored table from a worksheet
  durpaxeta cut          takes a subset of the cells out of a stored table
  durpaxeta merge        puts parts together into one stored table
  durpaxeta convert      makes a stored table from the older, interleaved form, or that form from a table
  durpaxeta generate     makes a stored table from a start number, the same on every machine
  durpaxeta arrangement  gives every table of a few cells, by its number: one as a worksheet, or all as files
  durpaxeta check        says whether a file is a valid table, and if not, why and at which byte
  durpaxeta same         says whether two files are the same table, and if not, where they differ
  durpaxeta explain      prints the stored bytes, field by field, with what they are
  durpaxeta table        edits the cells of a working table: make, show, set, preview, pack
  durpaxeta guest        gives a guest the cells that it may see, and no others: show, read, edit
  durpaxeta migrate      moves a table off the older form, chunk by chunk, while it is in use: begin, step, run, show, cut
  durpaxeta example      prints a worksheet to begin with

'durpaxeta help COMMAND' or 'durpaxeta COMMAND --help' tells more about each; 'durpaxeta help' prints this page.

A stored table does not say its kind or its shape. You do, or its description does (FILE.dpx, written by --describe):

  --kind "depth 2, ragged, width 4, index at start"    cells of any length
  --kind "depth 2, packed masks, ragged, width 4, index at start"    the same, its stored masks a bit a cell
  --kind "depth 1, fixed, size 2, little order"        cells of 2 bytes; or: big order, stored the last byte first
  --shape 2x3                                          2 rows of 3 cells
  --subset 0..2,1..3                                   rows 0 and 1, columns 1 and 2: the end is not included

Depth is the number of mask levels. Level 1 is the outermost. Bytes are counted from 0.
A file name of - is standard input or standard output. All is read into memory before anything is written. A pipe is read up to
268,435,456 bytes; a file as far as memory holds three times its bytes. What memory does not hold is refused (74).
What takes over a second is told in a line on standard error, where that is a terminal.
In a message the name of a file, a word or a line stands on one line: line ends, controls, invisible and right-to-left
characters and bytes that are no UTF-8 are told as \n, \r, \t or \x1B.

Where write, cut, merge, convert, generate, table, guest and migrate cut write to:
  A file is replaced whole or stays as it was. What is written goes to a temporary file in the same folder, is synced, and
  then takes the place of the old file, with its mode. On an error, or on a signal that ends the command, nothing is left
  of it. Commands that write one file take turns. What kill -9 or power loss left there, files named .durpaxeta-..., the
  next one that writes the file removes.
  A symbolic link stays one, and the file that it leads to is replaced; another hard link of that file keeps the old bytes.
  An output that is also an input, under whatever name, is refused. What is no regular file, such as a pipe, is written as
  it comes.
  --no-clobber    refuses to replace a file
  --describe      writes OUT.dpx beside OUT, with its mode: kind, shape, byte length and checksum, and of a cut which part
                  of which shape it is. show, check, same, explain, cut, merge, convert --to-interleaved, table make and
                  guest then need no --kind and --shape, and merge no --part; and they refuse a file that is not the one
                  described. Whoever reads OUT while it is written finds a description that fits.

Exit status:
  0         all went well, and all of it was delivered
  1 to 20   the number of the refusal, whether or not anyone read the words to it
  64        a wrong command line, or an output that is also an input
  65        a worksheet, a listing of a working table, a file with a rights plane, or a list of migrate, that cannot be read
  66        a description that cannot be read
  67        --kind, --shape or --part that differ from the description; same, merge: two that do not go together
  68, 69    a file of another length (68) or checksum (69) than its description, or a list of migrate, says
  71        same: two valid files that are not the same table; migrate run: a moved chunk that is not what its old file has
  73        --no-clobber: the output is there already; arrangement --all, migrate begin: so is the folder, and it is not empty
  74        an error of the operating system; so is an output that was closed
  141       standard output's reader left before all was written, as in '.. | head'; nothing is told

Examples:
  durpaxeta example > guests.txt
  durpaxeta write guests.txt guests.bin
  durpaxeta show --kind "depth 2, ragged, width 4, index at start" --shape 2x2 guests.bin
  durpaxeta write --describe guests.txt described.bin
  durpaxeta show described.bin
"#;

pub const SHOW: &str = r#"durpaxeta show [--kind KIND --shape SHAPE] [--hex | --json] FILE

Prints a stored table as a worksheet: a line for each cell, with its coordinates, its mask byte of each level, and then
'null at level N' or a value. A value of no bytes is printed as value "". A value is printed as text if it is UTF-8 and all
of it is printable and clear: no control, joining, invisible or right-to-left characters. Others, and all fixed ones, are
printed in hex; with --hex all are. Bytes stand as in memory, in --json too: in big order value hex 01 02 is stored as 02 01.
'durpaxeta write' makes the same table out of the worksheet.

With --json each cell is one line with a JSON object. "is" comes first: "null", "empty" or "value". "cell" and "masks" are lists.
Then a null has "null", its level; the others have "value" with "text" and "hex". Go by "is": the text of a value that is no UTF-8
is null, too.

Kind and shape may be left out where FILE.dpx says them ('durpaxeta help write').

Examples:
  durpaxeta example > guests.txt
  durpaxeta write guests.txt guests.bin
  durpaxeta show --kind "depth 2, ragged, width 4, index at start" --shape 2x2 guests.bin
  durpaxeta show --kind "depth 2, ragged, width 4, index at start" --shape 2x2 --hex guests.bin
  durpaxeta show --kind "depth 2, ragged, width 4, index at start" --shape 2x2 --json guests.bin
  durpaxeta show --kind "depth 2, ragged, width 4, index at start" --shape 2x2 - < guests.bin > again.txt
"#;

pub const WRITE: &str = r#"durpaxeta write [--describe] [--no-clobber] WORKSHEET OUT

Makes a stored table from a worksheet. The worksheet says its kind and its shape; then comes a line for each cell:

  durpaxeta worksheet 1
  kind: depth 2, ragged, width 4, index at start
  shape: 2x2
  0,0 | 01 01 | value "0-3,8"     # set, with a value
  0,1 | 01 01 | value ""          # set, with no bytes
  1,0 | 00 00 | null at level 1   # not set
  1,1 | 01 00 | null at level 2   # not set, one level deeper

A line is the coordinates, the mask byte of each level (00 is null, 01 is set, any other is refused with 4; at depth 0 a -),
and what the cell is: null at level N, value "text" or value hex 0A 0B. Masks and words must agree. A kind with packed masks
stores each mask byte as a bit. In a text \" \\ \n \t \r and \x0A stand for one byte; other characters for their bytes in
UTF-8. Every cell stands in one line; their order is free. # begins a comment. Bytes of a value are typed as they lie in memory,
the lowest address first: in little order they are stored so, in big order value hex 01 02 is stored as 02 01.

With --describe OUT.dpx is written too: a text with kind, shape, byte length and checksum of OUT. Both are replaced, or on an
error or a signal neither; and at every moment between, OUT.dpx fits OUT. Where OUT.dpx is there already, --describe must be
given, so that it stays right.

An index of width 4 says offsets up to 4294967295. Values with more bytes are refused with 20: choose width 8, or cut the table.

Examples:
  durpaxeta example > guests.txt
  durpaxeta write --describe guests.txt guests.bin
  cat guests.bin.dpx
  durpaxeta show guests.bin
  durpaxeta example | durpaxeta write - - > again.bin
  cmp guests.bin again.bin
"#;

pub const CUT: &str = r#"durpaxeta cut [--kind KIND --shape SHAPE] --subset SUBSET [--describe] [--no-clobber] IN OUT

Takes the cells of a subset out of a stored table and stores them as a table of the same kind. Its shape is the lengths of
the subset. A subset is one range for each side; the end is not included. Kind and shape may be left out where IN.dpx says
them ('durpaxeta help write').

With --describe OUT.dpx also says which part of which shape OUT is, so that 'durpaxeta merge' knows. A cut of a cut is a part of
the first shape.

Examples:
  durpaxeta example | durpaxeta write --describe - guests.bin
  durpaxeta cut --kind "depth 2, ragged, width 4, index at start" --shape 2x2 --subset 0..1,0..2 guests.bin host0.bin
  durpaxeta show --kind "depth 2, ragged, width 4, index at start" --shape 1x2 host0.bin
  durpaxeta cut --subset 1..2,0..2 --describe guests.bin host1.bin
  durpaxeta show host1.bin
  cat host1.bin.dpx
"#;

pub const MERGE: &str = r#"durpaxeta merge [--kind KIND] [--shape SHAPE] [--part SUBSET FILE]... [--describe] [--no-clobber] [FILE]... OUT

Puts stored tables of one kind together into one. Each part is a file, and the subset of the whole whose cells it has. Together
the subsets hold each cell once; their order is free.

A file that 'durpaxeta cut --describe' wrote is named alone: its description says kind, subset and the shape of the whole. Of any
other the subset stands before it, behind --part, and --kind and --shape say what no description does. What is given and described
must be the same, and so must the shapes of which the files are parts: else it is 67, with the name of the file.

Examples:
  durpaxeta example | durpaxeta write - guests.bin
  durpaxeta cut --kind "depth 2, ragged, width 4, index at start" --shape 2x2 --subset 0..1,0..2 --describe guests.bin host0.bin
  durpaxeta cut --kind "depth 2, ragged, width 4, index at start" --shape 2x2 --subset 1..2,0..2 --describe guests.bin host1.bin
  durpaxeta merge --kind "depth 2, ragged, width 4, index at start" --shape 2x2 --part 1..2,0..2 host1.bin --part 0..1,0..2 host0.bin all.bin
  cmp guests.bin all.bin
  durpaxeta merge host0.bin host1.bin --no-clobber again.bin
  cmp guests.bin again.bin
  durpaxeta merge --part 0..1,0..2 host1.bin --part 1..2,0..2 host0.bin no.bin 2>&1 || echo "refused with $?"
"#;

pub const CONVERT: &str = r#"durpaxeta convert --kind KIND --shape SHAPE [--describe] [--no-clobber] IN OUT
durpaxeta convert --to-interleaved [--kind KIND --shape SHAPE] [--no-clobber] IN OUT

Reads the older, interleaved form (Zarr V2: a count, then for each cell a length and its bytes) and stores its values as
ragged values. The older form has no masks, so the kind is a ragged one of depth 0. Bytes after the last cell are left out,
and standard error says how many.

With --to-interleaved it goes the other way: IN is a stored table, ragged and of depth 0, and OUT gets its cells in the older
form, for readers of Zarr V2. Kind and shape may be left out where IN.dpx says them. The older form has no description. A cell of over
4294967295 bytes is refused with 20.

Examples:
  printf '\002\000\000\000\001\000\000\000A\000\000\000\000' > old.bin
  durpaxeta convert --kind "depth 0, ragged, width 8, index at start" --shape 2 --describe old.bin new.bin
  durpaxeta show new.bin
  durpaxeta convert --to-interleaved new.bin again.bin
  cmp old.bin again.bin
"#;

pub const GENERATE: &str = r#"durpaxeta generate --kind KIND --shape SHAPE --start NUMBER [--describe] [--no-clobber] OUT

Makes a load: a stored table of that kind and shape whose cells are drawn from a start number, 0 to 4294967295. The same kind,
shape and start number give the same bytes on every machine, so two rooms can compare a file by its checksum, which --describe
writes. About one mask byte in four is null; a ragged value has 0 to 8 bytes. docs/FORMAT.md, part 13, tells what is drawn.
'durpaxeta show' prints the load as a worksheet.

Examples:
  durpaxeta generate --kind "depth 1, fixed, size 1, little order" --shape 2 --start 0 two.bin
  durpaxeta show --kind "depth 1, fixed, size 1, little order" --shape 2 two.bin
  durpaxeta generate --kind "depth 2, ragged, width 4, index at start" --shape 256x256 --start 7 --describe load.bin
  cat load.bin.dpx
  durpaxeta check load.bin
"#;

pub const ARRANGEMENT: &str = r#"durpaxeta arrangement --kind KIND --cells CELLS --number NUMBER
durpaxeta arrangement --kind KIND --cells CELLS --count
durpaxeta arrangement --kind KIND --cells CELLS --all FOLDER

Every table of 1 to 4 ragged cells, by its number: a complete set to accept a panel by, or any program that shows tables. The kind is
ragged, of depth 0 to 2. A cell is null at level 1, and so on to the innermost, or it has a value of 0, 1, 2 or 3 zero bytes: these are
its states, numbered from 0. A number has the state of each cell as a digit, the first cell weighing most. Each table in rest form with
such values comes up once. docs/FORMAT.md, part 17.

  --number   prints one as a worksheet, which 'durpaxeta write' stores
  --count    prints how many there are; their numbers begin with 0
  --all      makes a folder with all of them, stored: 00.bin, 01.bin and so on, with as many digits as the last one has, and index.txt,
             which says kind and shape, and of each file its number, the masks level by level, the length of each cell, and what each
             cell is. There are 1,296 files at most, and the index. The folder is new or empty, any other is kept (73). On an error, or
             on a signal that ends the command, nothing is left of it; what kill -9 leaves beside it, the next one that makes it removes.

1 is a fixed kind, a depth over 2, or not 1 to 4 cells; 19 is a number at or past the count.

Examples:
  durpaxeta arrangement --kind "depth 2, ragged, width 4, index at start" --cells 2 --number 8
  durpaxeta arrangement --kind "depth 2, ragged, width 4, index at start" --cells 4 --count
  durpaxeta arrangement --kind "depth 2, ragged, width 4, index at start" --cells 2 --all set
  grep '^8 ' set/index.txt
  durpaxeta show --kind "depth 2, ragged, width 4, index at start" --shape 2 set/08.bin
  durpaxeta arrangement --kind "depth 0, packed masks, ragged, width 8, index at end" --cells 1 --number 4 2>&1 || echo "refused with $?"
"#;

pub const CHECK: &str = r#"durpaxeta check [--kind KIND --shape SHAPE] [--strict] FILE
durpaxeta check --interleaved --shape SHAPE [--strict] FILE

Says whether a file is a valid table. If it is not, says the refusal, what it means, who causes it and the byte at which
the field begins that could not be accepted. The exit status is 0 or the number of the refusal. With --interleaved the
file is read as the older, interleaved form. Kind and shape may be left out where FILE.dpx says them.

Every byte of a valid table belongs to it: content behind a mask in which no cell is set, data that no offset reaches, and a
first offset above 0 are refused. Bytes after the last cell of the older form are ignored, and counted. --strict changes
nothing: it is taken for scripts that give it.

Examples:
  durpaxeta example | durpaxeta write - guests.bin
  durpaxeta check --kind "depth 2, ragged, width 4, index at start" --shape 2x2 guests.bin
  head -c 40 guests.bin > damaged.bin
  durpaxeta check --kind "depth 2, ragged, width 4, index at start" --shape 2x2 damaged.bin || echo "refused with $?"
  printf '\002\000\000\000\001\000\000\000A\000\000\000\000' | durpaxeta check --interleaved --shape 2 -
"#;

pub const SAME: &str = r#"durpaxeta same [--kind KIND --shape SHAPE] A B

Says whether two files are the same table: the same cells set and null, with the same values. It compares the bytes and
nothing else. That is enough: of one kind and shape, two valid files that read as equal tables have equal bytes, which is
proved (docs/SPEC.md, S8.10). So both must be valid; of one that is not, the refusal is said as check says it, of A first.

The exit status is 0 for the same table, 71 for another one, or the number of a refusal. Where the files differ, the first
byte that does is said, and of each file the field in which it lies, or that the file ends there.

Kind and shape may be left out where A.dpx or B.dpx says them; where both do, they must say the same (67). The checksums in
them are held against their own files, and never against each other. One of A and B can be -, standard input.

The older, interleaved form is not taken. Bytes after its last cell are ignored, so two such files can differ and have the
same cells: convert both, and compare what comes out. Nor are two files of different kinds or shapes the same or not by their
bytes: a table stored with another width, place, byte order or form of masks has other bytes. docs/FORMAT.md, part 14.

Examples:
  durpaxeta example | durpaxeta write --describe - guests.bin
  durpaxeta show guests.bin | durpaxeta write - again.bin
  durpaxeta same guests.bin again.bin
  durpaxeta example | sed 's/0-3,8/0-3,9/' | durpaxeta write - other.bin
  durpaxeta same guests.bin other.bin || echo "status $?"
  durpaxeta example | durpaxeta write - - | durpaxeta same guests.bin -
"#;

pub const EXPLAIN: &str = r#"durpaxeta explain [--kind KIND --shape SHAPE] FILE
durpaxeta explain --interleaved --shape SHAPE FILE

Prints the stored bytes field by field: position, bytes, what they are. Masks come before values; each mask line names its
cells, and of a packed mask the bit of each. Long parts are shortened with a count. Of a damaged file all is printed up to
the field that is refused, then the refusal and whose it is; a mask byte that is neither 00 nor 01 is named so. The exit
status is that of check. With --interleaved the file is read as the older, interleaved form.
Kind and shape may be left out where FILE.dpx says them; a file that is not the one described is explained, too.

Examples:
  durpaxeta example | durpaxeta write - guests.bin
  durpaxeta explain --kind "depth 2, ragged, width 4, index at start" --shape 2x2 guests.bin
  head -c 40 guests.bin > damaged.bin
  durpaxeta explain --kind "depth 2, ragged, width 4, index at start" --shape 2x2 damaged.bin || echo "refused with $?"
  printf '\002\000\000\000\001\000\000\000A\000\000\000\000' | durpaxeta explain --interleaved --shape 2 -
"#;

pub const TABLE: &str = r#"durpaxeta table make [--kind KIND --shape SHAPE] --store BYTES [--no-clobber] IN OUT
durpaxeta table show [--hex] TABLE
durpaxeta table set --cell CELL --to WHAT [--no-clobber] TABLE OUT
durpaxeta table preview --cell CELL --to WHAT TABLE
durpaxeta table pack --most NUMBER [--no-clobber] TABLE OUT

A working table is a ragged table whose cells are edited: each has a start and a length in a store of so many bytes. Here it is a
text. It says of each cell its masks, in words whether it is null, empty or has a value, its start and its length, and then what
bytes the store has; docs/FORMAT.md, part 15. Words that masks and length contradict are refused (65). A program calls the library
instead, on its own memory.

  make   makes a working table of a stored one. Kind and shape may be left out where IN.dpx says them. The store must have room
         for the cells; what is more is room for other values.
  show   prints the cells as a worksheet, which 'durpaxeta write' stores.
  set    sets a cell: --to 'value "0-3"', --to 'value hex 0A 0B' or --to 'null at level 1'. Its old bytes are given up and stay
         where they are; the new ones go behind the cell that lies highest. Where too little is left there, all cells are packed
         before. 15 is a cell that the table has not, 16 a value for which the store is too small.
  preview
         says what set would do, and writes no file: the sum of the lengths of all cells afterwards, and how many cells pack would
         then find to move; or the refusal, with the same exit status.
  pack   moves cells that do not lie end to end, the lowest first, at most 1 to 256 of them, and tells how many it moved.

No byte of the store is ever cleared: bytes that no cell has any more are in the text, marked 'in no cell', until others are put
there. 'table show' does not print them.

Examples:
  durpaxeta example | durpaxeta write --describe - guests.bin
  durpaxeta table make --store 12 guests.bin work.txt
  durpaxeta table set --cell 1,0 --to 'value "4-7"' work.txt next.txt
  durpaxeta table preview --cell 0,0 --to 'null at level 2' next.txt
  durpaxeta table set --cell 0,0 --to 'null at level 2' next.txt work.txt
  durpaxeta table pack --most 256 work.txt next.txt
  cat next.txt
  durpaxeta table show next.txt | durpaxeta write - edited.bin
"#;

pub const GUEST: &str = r#"durpaxeta guest show --rights PLANE [--kind KIND --shape SHAPE] [--hex | --json] FILE
durpaxeta guest read --rights PLANE [--kind KIND --shape SHAPE] [--describe] [--no-clobber] IN OUT
durpaxeta guest edit --rights PLANE --cell CELL --to WHAT [--no-clobber] TABLE OUT

A guest may see some cells of a table, and learns nothing of the others. A rights plane says which: a digit for each cell, row by
row, 1 where the guest may see it and 0 where not, with commas between: 1,0,1,0. --rights-file FILE takes the plane from a file
instead, where the end of a line does for a comma, and # begins a comment. A blank does for a comma, too. Digits of two cells with
nothing between, as in '00 01', are refused: that could be four cells, or two bytes. A plane with another digit, or for another
count of cells, is refused with 4. The kind must have a depth of at least 1, as only a mask can hide a cell: another one is 17.

  show   prints what the guest sees of a stored table, as 'durpaxeta show' prints a table. A cell that the plane hides is null at
         level 1, whatever it is: so a null is hidden or not set, and the guest cannot tell which.
  read   stores what show prints, as a table of the same kind and shape; of a part, with --describe, as the same part. Tables that
         differ in hidden cells alone give the same file.
  edit   sets a cell of a working table, a text as 'durpaxeta table' has it, if the plane shows that cell; 18 is a cell that it hides.
         All else is as in 'durpaxeta table set'. No hidden cell gets other masks or another value; where it lies may change. 16 can
         tell the guest how full the store is.

A guest with two planes sees what both show: read the table under one of them, and then show or read what that stored under the
other, in either order.

Hand a guest what show prints or read stores, and nothing else. A working table, OUT of edit too, has every cell, and old bytes.
What is wrong with the table itself is told to whoever runs the command, with the cell or the byte, be it hidden or not.

Examples:
  durpaxeta example | durpaxeta write --describe - guests.bin
  durpaxeta guest show --rights 1,0,1,0 guests.bin
  durpaxeta guest read --rights 1,0,1,0 --describe guests.bin own.bin
  durpaxeta show --json own.bin
  printf '1,0  # host 0\n1,0  # host 1\n' > rights.txt
  durpaxeta table make --store 12 guests.bin work.txt
  durpaxeta guest edit --rights-file rights.txt --cell 1,0 --to 'value "4-7"' work.txt next.txt
  durpaxeta guest edit --rights-file rights.txt --cell 0,1 --to 'value "8"' work.txt no.txt 2>&1 || echo "refused with $?"
  durpaxeta table show next.txt | durpaxeta write --describe - next.bin
  durpaxeta guest show --rights-file rights.txt next.bin
"#;

pub const MIGRATE: &str = r#"durpaxeta migrate begin --shape SHAPE --part SUBSET FILE [--part SUBSET FILE]... FOLDER
durpaxeta migrate step FOLDER
durpaxeta migrate run FOLDER
durpaxeta migrate show FOLDER
durpaxeta migrate cut [--kind KIND] --subset SUBSET [--describe] [--no-clobber] FOLDER OUT

Moves a table off the older, interleaved form, chunk by chunk, while it is in use. The table is many files in that form, each with
the subset of the whole whose cells it has; together they hold each cell once. The old files are only read. FOLDER gets the new
ones, and may be read all along.

  begin  makes FOLDER, new or empty (any other is kept, 73), of old files that are all valid. No chunk is moved yet.
  step   moves the next chunk, in the order in which they were given, and tells how far it is.
  run    moves all that are left. Then it reads the old files and what was moved again, and says whether each cell is the same.
  show   tells how far it is, and of each chunk whether it is old or moved, and where it lies.
  cut    stores the cells of a subset as a table, each from the chunk that holds it. It gives the same file before, between and after
         steps, and while one is made. KIND is ragged and of depth 0; without it width 8, index at start.

Stop step and run whenever you like, also with kill -9, or lose the power: FOLDER is then before or after a step, and run goes on from
there. Several may run at once; they take turns. FOLDER has three files: chunks.txt names the old files, with the length and the
checksum of each; area.bin has the moved chunks end to end, each a stored table of width 8, index at start; moved.txt lists their
lengths and checksums. What area.bin has behind those is of a step that was not finished, and the next one writes over it.

A file that is not what these lists say is refused: another length is 68, another checksum 69. An old file whose chunk is moved is not
read any more, but by run in the end. Each step and each cut checks the whole table, and reads all that is left of it.

Examples:
  printf '\001\000\000\000\001\000\000\000A' > a.old
  printf '\001\000\000\000\002\000\000\000BC' > b.old
  durpaxeta migrate begin --shape 2 --part 1..2 a.old --part 0..1 b.old moving
  durpaxeta migrate cut --subset 0..2 moving before.bin
  durpaxeta migrate step moving
  durpaxeta migrate cut --subset 0..2 moving between.bin
  cmp before.bin between.bin
  durpaxeta migrate run moving
  cat moving/moved.txt
  durpaxeta migrate cut --subset 0..2 moving - | durpaxeta show --kind "depth 0, ragged, width 8, index at start" --shape 2 -
"#;

pub const EXAMPLE_HELP: &str = r#"durpaxeta example

Prints a worksheet to begin with: which cores each guest may run on.

Examples:
  durpaxeta example > guests.txt
  durpaxeta write guests.txt guests.bin
"#;

/// The worksheet of `durpaxeta example`, and of the demonstration.
pub const EXAMPLE: &str = include_str!("../../demo/guests.txt");
