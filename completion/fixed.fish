# fish completion for fixed
# printed by make options: completions
set -l commands convert column json bits show format modes lines enclose least fit pack unpack repack constants sort help
complete -c fixed -n "not __fish_seen_subcommand_from $commands" -f
complete -c fixed -n __fish_use_subcommand -a convert -d 'Convert numerals or words of bits, one a line'
complete -c fixed -n __fish_use_subcommand -a column -d 'Convert columns of CSV, every other byte as it was'
complete -c fixed -n __fish_use_subcommand -a json -d 'Convert values of lines of JSON, every other byte as it was'
complete -c fixed -n __fish_use_subcommand -a bits -d 'Show what number the word of a register is'
complete -c fixed -n __fish_use_subcommand -a show -d 'Show all there is to know of a number in a format'
complete -c fixed -n __fish_use_subcommand -a format -d 'Show the range, the ulp and the digits of a format'
complete -c fixed -n __fish_use_subcommand -a modes -d 'List the rounding modes, and their names elsewhere'
complete -c fixed -n __fish_use_subcommand -a lines -d 'Answer lines `RADIX SOURCE TARGET POLICY NUMERAL`'
complete -c fixed -n __fish_use_subcommand -a enclose -d 'Answer lines `RADIX FORMAT NUMERAL` with the two nearest values'
complete -c fixed -n __fish_use_subcommand -a least -d 'Find the least format that holds each numeral of an input exactly'
complete -c fixed -n __fish_use_subcommand -a fit -d 'Find the finest format of a width, or the least within an error'
complete -c fixed -n __fish_use_subcommand -a pack -d 'Pack numerals, words of bits or raw floats into raw words'
complete -c fixed -n __fish_use_subcommand -a unpack -d 'Write a line or a raw float for each raw word'
complete -c fixed -n __fish_use_subcommand -a repack -d 'Write raw words of one format as raw words of another'
complete -c fixed -n __fish_use_subcommand -a constants -d 'Write named literals or a list of numerals as source code'
complete -c fixed -n __fish_use_subcommand -a sort -d 'Sort lines `NUMERAL FORMAT` by value, in one aligned column'
complete -c fixed -n __fish_use_subcommand -a help -d 'Show the help of a command'
complete -c fixed -n '__fish_seen_subcommand_from convert column json' -l from -x -a 'text bits' -d 'text (default): numerals; bits: words of SOURCE'
complete -c fixed -n '__fish_seen_subcommand_from convert column json bits show fit pack constants' -s r -l radix -x -a '2 8 10 16' -d 'Of numerals and words: 2, 8, 10 (default) or 16'
complete -c fixed -n '__fish_seen_subcommand_from convert column json show pack unpack repack constants' -s p -l policy -x -a 'checked saturating wrapping symmetric' -d 'default checked; saturating, wrapping, symmetric'
complete -c fixed -n '__fish_seen_subcommand_from convert column json show pack constants' -s m -l mode -x -a 'nearest ties-away ties-zero ties-up ties-down floor ceil zero away' -d 'nearest (default), or see \'fixed help modes\''
complete -c fixed -n '__fish_seen_subcommand_from convert column json unpack repack' -l target-mode -x -a 'nearest ties-away ties-zero ties-up ties-down floor ceil zero away' -d 'To TARGET: floor (default), or as --mode'
complete -c fixed -n '__fish_seen_subcommand_from convert' -l print -x -a 'text bits hex readmemh value all error ulps' -d 'text, bits, hex, readmemh, value, all, error or ulps'
complete -c fixed -n '__fish_seen_subcommand_from convert column json unpack' -l places -x -d 'The text with N digits after the point, 0 to 64'
complete -c fixed -n '__fish_seen_subcommand_from convert column json unpack' -l places-mode -x -a 'nearest ties-away ties-zero ties-up ties-down floor ceil zero away' -d 'To N digits: nearest (default), or as --mode'
complete -c fixed -n '__fish_seen_subcommand_from convert bits show lines enclose least fit pack constants' -l trim -d 'Blanks around a numeral are left out'
complete -c fixed -n '__fish_seen_subcommand_from convert bits show lines enclose' -l skip-blank -d 'A blank line is answered by an empty one'
complete -c fixed -n '__fish_seen_subcommand_from convert bits show lines enclose' -l comments -x -d 'A line that begins with PREFIX gives an empty one'
complete -c fixed -n '__fish_seen_subcommand_from convert column json bits show lines enclose least fit pack unpack repack constants sort' -l limit -x -d 'The most bytes of an input, 1 to 4294967296'
complete -c fixed -n '__fish_seen_subcommand_from convert' -l words -d 'Each word of a line; blanks and commas stay'
complete -c fixed -n '__fish_seen_subcommand_from convert' -l separators -x -d 'What separates words beside blanks: \',\' (default)'
complete -c fixed -n '__fish_seen_subcommand_from convert' -l refused -x -d 'What a refused word becomes: error (default)'
complete -c fixed -n '__fish_seen_subcommand_from convert' -l keep -d 'Text among words stays; all: overflows as well'
complete -c fixed -n '__fish_seen_subcommand_from convert column json pack repack' -l report -d 'A report on standard error: text (default), json'
complete -c fixed -n '__fish_seen_subcommand_from convert column json lines enclose' -l rejects -r -d 'A line for each refused numeral goes to FILE'
complete -c fixed -n '__fish_seen_subcommand_from convert column json bits show format lines enclose least fit pack unpack repack constants sort' -s o -l output -r -d 'Answers go to FILE, which is made anew'
complete -c fixed -n '__fish_seen_subcommand_from column json unpack' -l print -x -a 'text bits hex readmemh value all' -d 'text (default), bits, hex, readmemh, value, all'
complete -c fixed -n '__fish_seen_subcommand_from column' -s d -l delimiter -x -d 'The byte between fields: a comma (default); tab'
complete -c fixed -n '__fish_seen_subcommand_from column' -l all -d 'Every column, in place of COLUMNS'
complete -c fixed -n '__fish_seen_subcommand_from column' -s H -l header -d 'The first record is a header with names'
complete -c fixed -n '__fish_seen_subcommand_from column' -l skip -x -d 'The first N lines are no records, and stay'
complete -c fixed -n '__fish_seen_subcommand_from column' -l trim -d 'Blanks around a field are left out'
complete -c fixed -n '__fish_seen_subcommand_from column constants' -l decimal -x -d 'The byte before a fraction: a point (default)'
complete -c fixed -n '__fish_seen_subcommand_from column' -l decimal-out -x -d 'In answers: as --decimal (default)'
complete -c fixed -n '__fish_seen_subcommand_from column' -l thousands -x -d 'Between groups of three digits; not written'
complete -c fixed -n '__fish_seen_subcommand_from column' -l thousands-anywhere -x -d 'C is left out wherever it stands'
complete -c fixed -n '__fish_seen_subcommand_from column' -l empty -x -a 'fault keep 0' -d 'An empty field: fault (default), keep, or 0'
complete -c fixed -n '__fish_seen_subcommand_from column' -l into -x -d 'One column\'s answers go into a new one, the last'
complete -c fixed -n '__fish_seen_subcommand_from column' -l keep -d 'A field that is refused stays as it was'
complete -c fixed -n '__fish_seen_subcommand_from json' -l trim -d 'Blanks around a numeral in a string are left out'
complete -c fixed -n '__fish_seen_subcommand_from json' -l skip-blank -d 'A blank line stays as it was'
complete -c fixed -n '__fish_seen_subcommand_from json' -l comments -x -d 'A line that begins with PREFIX stays as it was'
complete -c fixed -n '__fish_seen_subcommand_from json' -l keep -d 'A line that is refused stays as it was'
complete -c fixed -n '__fish_seen_subcommand_from bits' -l field -x -d 'Bits HI to LO of a word; several: each HI:LO:FORMAT'
complete -c fixed -n '__fish_seen_subcommand_from bits' -l swap -d 'Bytes in reverse, of words with all hex digits'
complete -c fixed -n '__fish_seen_subcommand_from bits show format' -l json -d 'An object of JSON on a line in place of a block'
complete -c fixed -n '__fish_seen_subcommand_from bits show' -l file -r -d 'Each line of FILE is a word; `-` is standard input'
complete -c fixed -n '__fish_seen_subcommand_from least' -l why -d 'If none is left, also the line that rules out each'
complete -c fixed -n '__fish_seen_subcommand_from least fit pack constants' -l skip-blank -d 'Lines of blanks are passed over'
complete -c fixed -n '__fish_seen_subcommand_from least fit pack constants' -l comments -x -d 'Lines that begin with PREFIX are passed over'
complete -c fixed -n '__fish_seen_subcommand_from fit' -s w -l width -x -a '8 16 32 64' -d 'The width of the format in bits, from 1 to 64'
complete -c fixed -n '__fish_seen_subcommand_from fit' -s e -l error -x -d 'The least format within an error: a numeral or 2^-K'
complete -c fixed -n '__fish_seen_subcommand_from fit' -l any -d 'With --error, of any width, not only 8, 16, 32 and 64'
complete -c fixed -n '__fish_seen_subcommand_from fit' -l whole -x -d 'At least N whole bits, sign included: 1 as in Q15'
complete -c fixed -n '__fish_seen_subcommand_from fit' -l beyond -d 'Also fractions longer than the width, up to 64 bits'
complete -c fixed -n '__fish_seen_subcommand_from fit' -l signed -d 'Only signed formats, even if no numeral is negative'
complete -c fixed -n '__fish_seen_subcommand_from fit' -l why -d 'Also what rules out a finer format or lesser width'
complete -c fixed -n '__fish_seen_subcommand_from fit' -l range -d 'Every value from LO to HI, in place of files'
complete -c fixed -n '__fish_seen_subcommand_from pack' -l from -x -a 'text bits f64 f32' -d 'text (default), bits: words; f64, f32: raw floats'
complete -c fixed -n '__fish_seen_subcommand_from pack unpack repack' -l endian -x -a 'little big' -d 'The order of bytes: little (default), big'
complete -c fixed -n '__fish_seen_subcommand_from unpack' -l to -x -a 'text f64 f32' -d 'text (default): lines; f64, f32: raw floats'
complete -c fixed -n '__fish_seen_subcommand_from unpack' -l skip -x -d 'The first BYTES of an input are no words: a header'
complete -c fixed -n '__fish_seen_subcommand_from unpack' -l count -x -d 'At most N words of an input are read'
complete -c fixed -n '__fish_seen_subcommand_from repack' -l endian-out -x -a 'little big' -d 'Of words that are written: as --endian (default)'
complete -c fixed -n '__fish_seen_subcommand_from constants' -l guard -x -d 'The name that guards the C header'
complete -c fixed -n '__fish_seen_subcommand_from constants' -l numerals -x -a 'I16F16 U16F16 I8F8 U8F8 I32F32 U32F32 I1F15 I1F31 I4F4 U0F8' -d 'Each line is a numeral, read into this format'
complete -c fixed -n '__fish_seen_subcommand_from constants' -l name -x -d 'The name of the array'
complete -c fixed -n '__fish_seen_subcommand_from convert column json bits show format pack unpack repack' -a 'I16F16 U16F16 I8F8 U8F8 I32F32 U32F32 I1F15 I1F31 I4F4 U0F8' -d 'a format'
complete -c fixed -n '__fish_seen_subcommand_from least' -a '2 8 10 16' -d 'RADIX'
complete -c fixed -n '__fish_seen_subcommand_from constants' -a 'c rust array-c array-rust vhdl readmemh coe mif' -d 'FORM'
complete -c fixed -n '__fish_seen_subcommand_from sort' -a 'limit' -d 'LIMIT'
# end of completions
# The names in the header of the first file among the words.
function __fixed_names
    set -l words (commandline -opc)
    set -l delimiter ','
    if set -l at (contains -i -- -d $words; or contains -i -- --delimiter $words)
        set -q words[(math $at + 1)]; and set delimiter $words[(math $at + 1)]
    end
    string match -qr '^(tab|\\\\t)$' -- $delimiter; and set delimiter \t
    for word in $words[3..-1] (commandline -o)[3..-1]
        if test -f "$word"
            set -l before (string match -r '^.*,' -- (commandline -ct))
            for name in (head -n 1 -- $word | string replace -ra '["\r]' '' | string split -- $delimiter)
                echo "$before$name"
            end
            return
        end
    end
end
complete -c fixed -n '__fish_seen_subcommand_from column; and string match -qr -- "^(-H|--header)\$" (commandline -opc)' -f -a '(__fixed_names)' -d 'a column'
complete -c fixed -n '__fish_seen_subcommand_from help' -f -a "$commands"
