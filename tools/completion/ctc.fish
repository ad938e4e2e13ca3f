# Completion of ctc for fish. Words, their own words and their options are those that ctc itself lists, by --help.

function __ctc_words
    ctc --help 2>/dev/null | sed -nE 's|^ *(\./)?ctc ([a-z]+) .*|\2|p' | sort -u
end
function __ctc_own_words
    set -l word (commandline -opc)[2]
    ctc $word --help 2>/dev/null | sed -nE "s|^(usage:)? *(\./)?ctc $word ([a-z]+) .*|\3|p" | sort -u
end
# those of the word; behind a word of its own, those that its line has
function __ctc_options
    set -l typed (commandline -opc)
    set -l help (ctc $typed[2] --help 2>/dev/null)
    if string match -qr '^[a-z]+$' -- "$typed[3]"
        set -l own (string match -r "^(?:usage:)? *(?:\./)?ctc $typed[2] $typed[3] .*" -- $help)
        and set help $own --help
    end
    printf '%s\n' $help | grep -oE -- '(^|[^a-z-])--[a-z-]+[a-z]' | sed 's/^[^-]*//' | sort -u
end

complete -c ctc -n '__fish_is_nth_token 1' -f -a '(__ctc_words) --help --version'
complete -c ctc -n '__fish_is_nth_token 2' -a '(__ctc_own_words)'
complete -c ctc -n 'not __fish_is_nth_token 1; and string match -q -- "-*" (commandline -ct)' -a '(__ctc_options)'
