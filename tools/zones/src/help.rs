//! What `--help` prints.

pub const SHORT: &str = "\
usage: zones check FILE | where FILE X Y | log FILE RUN.csv
       zones draw FILE OUT.png | records FILE | words FILE
Try zones --help.";

pub const WHOLE: &str = "\
Which drawn area a position lies in, from the command line.

  zones check FILE            what a drawing has, or where and why it is refused
  zones where FILE X Y        the areas, material and colour at a position
  zones log FILE RUN.csv      where the material changes along a run
  zones draw FILE OUT.png     a picture of the drawing, or of a part of it
  zones records FILE -o OUT   the drawing as records, which the library reads
  zones words FILE            the drawing in words, which a person edits

  zones COMMAND --help        all about a command, with its options
  zones --version

FILE is a drawing, and every command takes either form: a file of records or a
drawing in words (zones records --help has it). A file with a byte that is zero
is taken as records, any other as words. - is standard input.

Exit status: 0 done; 1 refused: the drawing, its words, the run or the position
is at fault, and the message says where; 2 the command line is wrong, or a file
cannot be read or written.
";

/// Stands under the help of each command.
pub const STATUS: &str = "\
Exit status: 0 done, 1 refused, 2 wrong usage or a file that cannot be used.
";

pub const CHECK: &str = "\
Reads a drawing, opens a tree over it and grows it. Prints what the drawing has,
its materials (colour and alpha are those of the front area), the cells and
entries of the tree, and the memory of tables that are just long enough. Or says
why the drawing is refused: the number of the refusal, the record, and of a
drawing in words the line and column.

  FILE            a file of records or a drawing in words; - is standard input
  --threshold N   split the leaves with more lines than this (default 2)
  --limit N       and a depth below this, 0 to 16 (default 8)

  zones check samples/pit.txt
";

pub const WHERE: &str = "\
Prints the material and the colour at a position, the areas that show there,
front first, the leaf of the tree around it, the numbers of the cells around the
leaf, from its parent up to cell 0, and how far the answer reaches: all of the
leaf, where its stream has no line, curve or shortcut; else this position is all
that is said, and those around may show the same. The options of the tree change
the leaf, the cells around it and the reach, never what shows.

  FILE            a file of records or a drawing in words; - is standard input
  X, Y            the position: whole numbers from 0 to 65,535, y upward
  --threshold N   split the leaves with more lines than this (default 2)
  --limit N       and a depth below this, 0 to 16 (default 8)

  zones where samples/pit.zones 40000 30000
";

pub const LOG: &str = "\
Prints the zone log of a run of positions: the first one, and each whose
material differs from the one before, as lines index,x,y,material under a
header. The first position has index 0; material 0 is no area.

  FILE            a file of records or a drawing in words; - is standard input
  RUN.csv         a line X,Y for each position, whole numbers from 0 to 65,535;
                  the first line may be a header; - is standard input
  --threshold N   split the leaves with more lines than this (default 2)
  --limit N       and a depth below this, 0 to 16 (default 8)

  printf '20000,20000\\n40000,30000\\n' | zones log samples/pit.zones -
";

pub const DRAW: &str = "\
Draws the map or a part of it, y upward, as a PNG file. A dot that is at least a
pixel (16 units) wide or high is the mean of the pixels it covers, each counted
by the part that is covered. A smaller dot has the colour of the position in its
middle, so that a part that is enlarged stays sharp. The whole grid has 16.8
million pixels and takes some seconds; on a terminal a bar shows how far it is.

  FILE                      a file of records or a drawing in words;
                            - is standard input
  OUT.png                   the picture; - is standard output
  --size W                  dots across, 1 to 65,536 (default 512), and as many
                            up as keep the shape of the part
  --size WxH                dots across and up
  --part X,Y,WIDTH,HEIGHT   the part in units, from its low corner
                            (default 0,0,65536,65536, the whole grid)
  --cells                   with the lines between the leaves of the tree
  --threshold N             split the leaves with more lines than this (default 2)
  --limit N                 and a depth below this, 0 to 16 (default 8)

  zones draw samples/pit.zones pit.png --size 768 --cells --limit 6
  zones draw samples/pit.zones road.png --part 30000,25000,12000,9000
";

pub const RECORDS: &str = "\
Writes a drawing as a file of 16-byte records, which the library reads. The
library reads it first: a drawing that is refused is not written, and the
message names the line and column of the words.

  FILE            a drawing in words (or a file of records);
                  - is standard input
  -o OUT          the file to write (default standard output); also --output OUT
  --unchecked     write what the words say though the library refuses it, with
                  any number that fits in a record

  zones records samples/pit.txt -o pit.zones

A drawing in words has a line for each area, contour and delimiter; # begins a
comment. Areas stand front first, and the contours of an area behind it.

  paint RULE ALPHA RED GREEN BLUE MATERIAL   RULE is non-zero or even-odd
  clip RULE
  contour X,Y X,Y X,Y ...           corners from 0 to 65,536; the contour closes
  contour X,Y control X,Y X,Y ...   a curve, from the corner before its control
                                    corner to the one behind it
  (                                 a group: left of its | what clips, right of
  |                                 it what is clipped; each of the three on a
  )                                 line of its own
";

pub const WORDS: &str = "\
Writes a drawing in words (zones records --help has their form), of which zones
records makes the same records again. Records have no comments: words that were
made into records and back have lost theirs.

  FILE            a file of records (or a drawing in words);
                  - is standard input
  -o OUT          the file to write (default standard output); also --output OUT
  --unchecked     say the records though the library refuses the drawing, as far
                  as words can

  zones words samples/pit.zones -o pit.txt
";
