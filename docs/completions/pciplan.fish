# Completion of pciplan for fish. pciplan(1) says what the words mean.

# Whether a command is still wanted.
function __pciplan_wants_command
    test (count (commandline -opc)) -eq 1
end

# The words before the cursor; what follows json is a command with its words.
function __pciplan_words
    set -l words (commandline -opc)
    if test (count $words) -gt 2; and test "$words[2]" = json
        set -e words[2]
    end
    string join \n -- $words
end

# __pciplan_is_behind COMMAND: whether a word behind this command alone is wanted.
function __pciplan_is_behind
    set -l words (commandline -opc)
    test (count $words) -eq 2; and test "$words[2]" = "$argv[1]"
end

# __pciplan_takes OPTION COMMAND..: whether the command is one of these, and the option isn't said yet.
function __pciplan_takes
    set -l words (__pciplan_words)
    contains -- "$words[2]" $argv[2..-1]
    and not string match -qr -- "^--$argv[1](=|\$)" $words
end

# Whether one of the two texts is still wanted, and the cursor doesn't stand in an option's own word.
function __pciplan_wants_text
    set -l words (__pciplan_words)
    contains -- "$words[2]" show check faults map size plan settle probe picture; or return
    set -e words[1..2]
    set -l valued --root --model --host-io --host-mem --also --io --mem --pref --fixed --spare --slots
    set -l texts 0
    set -l before ''
    for word in $words
        if test "$before" = --
            set texts (math $texts + 1)
        else if contains -- "$before" $valued
            set before ''
        else
            string match -q -- '--*' "$word"; or set texts (math $texts + 1)
            set before "$word"
        end
    end
    test $texts -lt 2; and not contains -- "$before" $valued
end

complete -c pciplan -f
complete -c pciplan -n __pciplan_wants_text -F
complete -c pciplan -n __pciplan_wants_command -a here -d 'Judge the Linux machine that it runs on'
complete -c pciplan -n __pciplan_wants_command -a show -d 'List what each function decodes to'
complete -c pciplan -n __pciplan_wants_command -a check -d 'Judge a dump and its probe'
complete -c pciplan -n __pciplan_wants_command -a faults -d 'List all faults at once'
complete -c pciplan -n __pciplan_wants_command -a map -d 'Print the address map'
complete -c pciplan -n __pciplan_wants_command -a size -d 'Print the probe that sizing would read'
complete -c pciplan -n __pciplan_wants_command -a plan -d 'Plan the addresses of a board'
complete -c pciplan -n __pciplan_wants_command -a settle -d 'Move what is at fault, within lists of ranges'
complete -c pciplan -n __pciplan_wants_command -a probe -d 'Derive the probe from what Linux sized'
complete -c pciplan -n __pciplan_wants_command -a json -d 'Print the answer of a command as JSON'
complete -c pciplan -n __pciplan_wants_command -a picture -d 'Draw the address map as SVG'
complete -c pciplan -n __pciplan_wants_command -a explain -d 'Explain a fault or a command'
complete -c pciplan -n __pciplan_wants_command -a version -d 'Print the version'
complete -c pciplan -n '__pciplan_is_behind here' -a 'faults map dump probe words'
complete -c pciplan -n '__pciplan_is_behind json' -a 'show check faults map plan settle'
complete -c pciplan -n '__pciplan_is_behind explain' -a 'here show check faults map size plan settle probe json picture explain version'
complete -c pciplan -n '__pciplan_takes domain here' -l domain -x -d 'Judge this domain alone'
complete -c pciplan -n '__pciplan_takes from here' -l from -x -a '(__fish_complete_directories)' -d 'Folder that has sys and proc'
complete -c pciplan -n '__pciplan_takes log here' -l log -r -F -d 'File that has the kernel log'
complete -c pciplan -n '__pciplan_takes root check faults map plan settle picture' -l root -x -d 'Buses on which accesses of the host start'
complete -c pciplan -n '__pciplan_takes model faults map settle picture' -l model -x -a '(__fish_append , all cardbus ide isa power reset snoop subtractive unclaimed unnumbered vga vga16 windows)' -d 'Words by which functions are taken'
complete -c pciplan -n '__pciplan_takes host-io faults map picture' -l host-io -x -d 'I/O addresses that the host sends'
complete -c pciplan -n '__pciplan_takes host-mem faults map picture' -l host-mem -x -d 'Memory addresses that the host sends'
complete -c pciplan -n '__pciplan_takes also faults map settle picture' -l also -r -F -d 'File that tells what no BAR shows'
complete -c pciplan -n '__pciplan_takes io plan settle' -l io -x -d 'Pool or ranges of I/O addresses'
complete -c pciplan -n '__pciplan_takes mem plan settle' -l mem -x -d 'Pool or ranges of memory addresses'
complete -c pciplan -n '__pciplan_takes pref plan settle' -l pref -x -d 'Pool or ranges of prefetchable memory addresses'
complete -c pciplan -n '__pciplan_takes fixed settle' -l fixed -x -d 'Slots that may not be written'
complete -c pciplan -n '__pciplan_takes anew settle' -l anew -d 'Leave nothing where it stands'
complete -c pciplan -n '__pciplan_takes spare settle' -l spare -x -d 'Room behind hot-plug slots'
complete -c pciplan -n '__pciplan_takes slots settle' -l slots -x -d 'Bridges with a hot-plug slot'
complete -c pciplan -n '__pciplan_takes writes plan settle' -l writes -d 'Print the register writes'
complete -c pciplan -n '__pciplan_takes why faults plan' -l why -d 'Tell what stands behind a fault'
complete -c pciplan -n '__pciplan_takes exact probe' -l exact -d 'Assume nothing'
complete -c pciplan -n '__pciplan_takes least probe' -l least -d 'Assume the least size of BARs and enabled ROMs too'
