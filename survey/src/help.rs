//! What `--help` says.

pub const ALL: &str = "\
bed: meshes the bed of a tank from a grid of signed distances, by a proved library.

  bed survey GRID -o BED.mesh     fixtures cut, the bed closed and weighed, its volume and level, its mesh, one page
  bed mesh GRID -o BED.mesh       the mesh alone
  bed info BED.mesh..             checks mesh files and counts them
  bed volume BED.mesh..           the volume of mesh files that have no hole
  bed ply BED.mesh OUT.ply        a mesh file for viewers
  bed plan PLAN GRID              whether blocks are a plan of a whole, and fit the grid
  bed plan --make 10,5,4 GRID     a plan in so many blocks on x, y and z
  bed cut FIXTURES GRID -o OUT    fixtures cut out of a grid
  bed fixtures TEXT -o FIXTURES   fixtures from a text

bed COMMAND --help says more of each; bed --version. --output is -o, --memory=4G is --memory 4G, and after -- every word is
a file. Exit status: 0 done; 1 refused by the library; 2 wrong use, or a file that cannot be read or written; 3 no volume is told,
by survey or volume, all else being done; 4 a survey's volume is none that the distances can have. No file that is read is
written over, and INT and TERM leave the old files and nothing else.
";

/// What every command that reads a grid says of it.
const GRID: &str = "
GRID is a NumPy .npy file of float32, int16 or int8, C order, shape z, y, x; below zero is inside the sludge. Or raw
numbers, the lowest byte first, x innermost:
  --dims X,Y,Z             the points on each axis
  --type float32           or int16, or int8
";

/// What the commands that mesh say of large grids.
const MEMORY: &str = "  --memory SIZE            how much memory the command may take: a number of bytes, or one with K, M or G after it; else half
                           of the machine's memory, or of what the control group has where that is less

In memory there are the grid, and for each worker, of which there are as many as fit, a map of four bytes a point and the
mesh of its block. A grid for which that is more stays in its file and is taken layer by layer, twice, in memory for some ten layers and what one of
them brings out. The mesh file is the same, byte for byte. If the grid's file changes meanwhile, nothing is written.
";

pub fn of(command: &str) -> Option<String> {
    let parts: &[&str] = match command {
        "survey" => &[SURVEY, MEMORY, LAYERS, TOLD, GRID],
        "mesh" => &[MESH, MEMORY, GRID],
        "info" => &[INFO],
        "volume" => &[VOLUME],
        "ply" => &[PLY],
        "plan" => &[PLAN, GRID],
        "cut" => &[CUT, FIXTURES, GRID],
        "fixtures" => &[TEXT, FIXTURES],
        _ => return None,
    };
    Some(parts.concat())
}

const SURVEY: &str = "\
bed survey GRID [--plan PLAN] [--fixtures FIXTURES] [--step METRES [--origin X,Y,Z]] [--closed | --open] [--levels OUT.npy]
           [--json FILE] [--memory SIZE] -o BED.mesh

Cuts the fixtures out of the grid, closes the bed by a border of far points, as a tank's floor and walls do, and prints one page:
the closed bed's volume, that it has no hole, the level of the bed, and what each rests on. The mesh file is that of the open bed, for
viewers: on a tank's floor and walls it has edges, and no volume of its own. On every survey the volume is checked by code that shares
nothing with the library: cells whose corners are all below zero, and those where some are, bound it.

With a plan, which is checked first, its whole is what is closed, and points below zero outside of it are counted; the blocks are meshed on
all cores, and BED.001.mesh, BED.002.mesh and so on are written, one for each block, and last of all BED.manifest: their names, SHA-256,
counts and sums, and what they were made of. Files of an older survey under the same name are removed where its manifest
names them and they are what it says; any other of such a name is refused.

  --plan PLAN              the blocks; see bed plan --help
  --fixtures FIXTURES      a file of fixtures, or a text; see bed fixtures --help
  --step METRES            the metres of a grid step, one number or x,y,z: volume in cubic metres and levels in metres beside the grid's steps;
                           fixtures as text are then in metres too
  --origin X,Y,Z           the metres of the grid's point 0,0,0; else 0,0,0
  --closed                 writes the closed bed's mesh instead; its vertices stand one step further on each axis
  --open                   closes nothing, and tells no volume
  --levels OUT.npy         the level of each column of the box: float32, shape y, x, not-a-number where no point is below zero; metres with --step
  --json FILE              every number of the page, and each claim with its standing
  -o BED.mesh              the mesh file
";

/// What its numbers and its status mean.
const TOLD: &str = "
The level of a column is where the line from its highest point below zero to the one above it crosses zero. Lowest and mean are over
the columns with a point below zero. Exit status 3 where no volume is told: with --open, or where the grid is too large to be closed;
4 where the cross-check fails, which the page's first line says. Files and page are there with both.
";

/// What a survey says of large grids beside it.
const LAYERS: &str = "\
Fixtures are cut out, and the bed is closed, weighed and levelled, layer by layer too, and the page says what that leaves
unproved. With a plan each block reads the layers that it lies in, so that blocks which are cut on z alone are the quickest.
";

const MESH: &str = "\
bed mesh GRID -o BED.mesh [--box X0,Y0,Z0,X1,Y1,Z1] [--max-plane xyz] [--ply BED.ply] [--memory SIZE]

Meshes a box of the grid and writes the mesh file. The file keeps its old content until the new one is whole.

  -o BED.mesh              the mesh file
  --box X0,Y0,Z0,X1,Y1,Z1  the box's corner points, both included; else the whole grid
  --max-plane xyz          the axes with faces on the box's max side; else none
  --ply BED.ply            the mesh for viewers too, with the crossings of each vertex
";

const INFO: &str = "\
bed info BED.mesh..

Checks mesh files and prints the vertices and triangles of each. A file that was cut off is refused with 21.
";

const VOLUME: &str = "\
bed volume BED.mesh..

Prints the volume of a mesh file whose triangles have each directed side as often as its reverse: six times over in cubed steps of 1/256,
and in cubed grid steps. Of any other, as the open bed's of a tank on floor and walls, it prints `open sheet: no volume`, with the volume
between the sheet and z = 0 over its shadow, and ends with status 3; bed survey closes the bed and tells its volume.

Several files are summed. The sum is a volume where BED.manifest says that they are all the blocks of one survey with --closed, and each
is unchanged; else it is told as a sum of sheets. One mesh of a whole tank comes from bed mesh on the grid, or from bed survey
without a plan. Coordinates that are not from 0 to 16777216 are refused with 63.
";

const PLY: &str = "\
bed ply BED.mesh OUT.ply

Writes a mesh file as binary PLY, with positions and normals; the normals are not of unit length.
";

const PLAN: &str = "\
bed plan PLAN GRID
bed plan --make X,Y,Z GRID [--max-plane xyz] [-o PLAN]

Says whether the blocks are a plan of the whole: every edge that the whole owns is owned by exactly one block, and no
block owns any other. Where they are not, the first edge that shows it is named, with the lines of the plan that own it: x edges before
y before z edges, then by the lowest z, y and x. And whether the mesher takes the whole and each block on the grid.

PLAN is a text: the whole on the first line, then a block a line, min, max and the letters of its max planes, as
  0 0 0 64 64 32 xz
with - for no letter. From # to the line's end is a comment.

  --make X,Y,Z             prints a plan of the whole grid in so many blocks on each axis, which the library has checked; 200
                           blocks at most
  --max-plane xyz          the axes on which the whole has faces on its max side; else none
  -o PLAN                  writes it to a file
";

const CUT: &str = "\
bed cut FIXTURES GRID -o OUT.npy [--step METRES [--origin X,Y,Z]]

Cuts the solid of a file of fixtures out of the grid and writes it as float32.

  -o OUT.npy               the grid after it
  --step METRES            the metres of a grid step, one number or x,y,z, where the fixtures are a text in metres
  --origin X,Y,Z           the metres of the grid's point 0,0,0; else 0,0,0
";

const TEXT: &str = "\
bed fixtures TEXT -o FIXTURES [--step METRES [--origin X,Y,Z]]

Writes the records that a text of fixtures means, which the library has read.

  -o FIXTURES              the records
  --step METRES            the metres of a grid step, one number or x,y,z, where the text is in metres; else it is in grid steps
  --origin X,Y,Z           the metres of the grid's point 0,0,0; else 0,0,0
";

/// What fixtures are, wherever they are taken.
const FIXTURES: &str = "
FIXTURES is records of 32 bytes, as include/bed.h says, or a text of one solid, low x y z and high x y z of each box:
  box 40 6 8 42 8 20
  union { box 0 0 0 1 1 1  box 2 0 0 3 1 1 }
  intersection { .. }
  difference { box 0 0 0 9 9 9  box 1 1 1 8 8 8 }
From # to the line's end is a comment.
";
