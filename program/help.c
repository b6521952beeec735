#include "options.h"

#define MARK_OPTIONS \
    "  --level N           level of error correction, 0 to 3  (2 if left out; docs/LOCKING.md says which to take)\n" \
    "  --mask N|auto       mask, 0 to 3; auto takes the one that the standard's rule chooses  (auto if left out)\n" \
    "  --version N         version of the mark, 1 to 84  (the smallest that fits if left out)\n"

#define PICTURE_OPTIONS \
    "  --scale N           pixels for each module, in pbm, p4 and png  (4 if left out)\n" \
    "  --quiet-zone N      light modules around the mark  (3 if left out)\n" \
    "  --module MM         side of a module in mm, in svg and png  (0.25 if left out)\n" \
    "  --force             replace files that are there\n"

#define READING_OPTIONS \
    "  --known V,L,M       the mark has this version, level and mask; its information modules are not read\n" \
    "  --max-repairs N     refuse a mark of which more codewords were repaired (refused by policy)\n" \
    "  --threshold P       a pixel is light from this percentage of white on; LOW-HIGH: unknown between  (50 if left out)\n" \
    "  --mixed             a module with light and dark pixels is unknown  (if left out, the picture is refused)\n" \
    "  --upright           the mark lies upright and is not mirrored; the finders are not asked\n" \
    "  --mirrored          the mark is mirrored; how it is turned is found\n"

static const char WRITE_HELP[] =
    "usage: hanxin write [OPTIONS] SERIAL|-\n"
    "       hanxin write [OPTIONS] --file FILE\n"
    "\n"
    "Writes a mark for a serial: the argument, or the text of standard input (-) or of a file. One line end behind such a text, and\n"
    "a byte order mark before it, do not count. The mode is numeric if the serial has digits only, else text if that has all its\n"
    "bytes, else bytes.\n"
    "\n"
    "  -o, --output FILE   where the picture goes; - is standard output  (standard output if left out)\n"
    "  --format FORMAT     text (for a terminal), pbm (plain), p4, svg or png  (by the file's extension if left out, else text)\n"
    "  --file FILE         read the serial from this file; - is standard input\n"
    "  --exact             take all bytes of the file as they are\n" MARK_OPTIONS PICTURE_OPTIONS
    "  -h, --help          this text\n"
    "\n"
    "Behind -- every argument is a serial, even -. Exit status: 0 written, 1 refused, 2 wrong usage, or input or output failed.\n";

static const char READ_HELP[] =
    "usage: hanxin read [OPTIONS] FILE|- ..\n"
    "\n"
    "Reads marks from pictures: plain and raw PBM and PGM (P1, P4, P2, P5), PNG, and what hanxin has written (svg, text). A module has\n"
    "whole pixels of one shade; a light border is taken off. A 2 in plain PBM, or in rows of 0, 1 and 2 without a header, is an\n"
    "unknown module. How the mark is turned is found from its finders, whether it is mirrored from its information modules; never by\n"
    "trying which reading passes.\n"
    "\n"
    "  --json              one JSON object a line: file, outcome, refusal and words, receipt, position, payload, script\n"
    "  --raw               the bytes of the payload alone, of one file\n"
    "  --show              show the square too, upright\n" READING_OPTIONS "  -h, --help          this text\n"
    "\n"
    "Exit status: 0 all read, 1 one was refused, 2 wrong usage, or a file that cannot be read or is no picture.\n";

static const char BATCH_HELP[] =
    "usage: hanxin batch [OPTIONS] --directory DIR LIST|-\n"
    "\n"
    "Writes a file for each line of a list of serials. Every file is read back before it counts. A line that is refused is named by\n"
    "its number, and the others go on. Line ends may be LF or CRLF; a byte order mark does not count.\n"
    "\n"
    "  -d, --directory DIR where the files go; it is made if it is not there\n"
    "  --column N|NAME     the list is CSV, and the serial its column N from 1, or of this name in the first line\n"
    "  --pattern NAME      the files' names without the extension: {n} is the line's number in six digits, {serial} the serial with\n"
    "                      _ for all but letters, digits, - and _  ({n} if left out)\n"
    "  --manifest FILE     CSV with line, serial, file, version, level, mask, bits  (DIR/manifest.csv if left out)\n"
    "  --format FORMAT     text, pbm, p4, svg or png  (png if left out, or p4 where PNG is not built in)\n" MARK_OPTIONS
        PICTURE_OPTIONS "  -h, --help          this text\n"
    "\n"
    "A row of the manifest is written before its file gets its name, so that the manifest has every file whenever the run stops.\n"
    "Exit status: 0 all written, 1 lines were refused, 2 wrong usage, input or output failed, or stopped.\n";

static const char OVERLAY_HELP[] =
    "usage: hanxin overlay [OPTIONS] FILE|-\n"
    "\n"
    "For a mark that is read: a picture of it, upright, that shows the data and information modules that differ from the mark as it\n"
    "was written, and unknown ones apart. In text ++ is dark and was light, -- is light and was dark, ?? is unknown.\n"
    "\n"
    "  -o, --output FILE   where the picture goes; - is standard output  (standard output if left out)\n"
    "  --format FORMAT     text, svg or png  (by the file's extension if left out, else text)\n" PICTURE_OPTIONS READING_OPTIONS
    "  -h, --help          this text\n"
    "\n"
    "Exit status: 0 drawn, 1 the mark is refused, 2 wrong usage, or input or output failed.\n";

static const char DEMO_HELP[] =
    "usage: hanxin demo [OPTIONS] SERIAL [FLIPS [SEED]]\n"
    "\n"
    "Makes a mark for the serial, shows it, scratches it, shows it again and reads it.\n"
    "\n"
    "  FLIPS               how many modules are flipped, or a part of them such as 8%  (0 if left out)\n"
    "  SEED                which ones: a number; the same number takes the same modules  (1 if left out)\n"
    "  --unknown N         how many other modules become unknown, or a part of them such as 5%  (0 if left out)\n"
    "  --write FILE        also write the modules, scratched, as plain PBM with one pixel for each; - is standard output\n"
    "  --force             replace the file if it is there\n" MARK_OPTIONS "  -h, --help          this text\n"
    "\n"
    "An unknown module is one that a camera cannot tell light from dark; it is a 2 in the file, which is then no PBM for others.\n"
    "Exit status: 0 read, 1 refused, 2 wrong usage, or the file cannot be written.\n";

const char *verb_name(Verb verb)
{
    switch (verb) {
    case VERB_WRITE: return "write";
    case VERB_READ: return "read";
    case VERB_BATCH: return "batch";
    case VERB_OVERLAY: return "overlay";
    default: return "demo";
    }
}

const char *help_of(Verb verb)
{
    switch (verb) {
    case VERB_WRITE: return WRITE_HELP;
    case VERB_READ: return READ_HELP;
    case VERB_BATCH: return BATCH_HELP;
    case VERB_OVERLAY: return OVERLAY_HELP;
    default: return DEMO_HELP;
    }
}
