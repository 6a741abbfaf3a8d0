# Completion of pciplan for bash. pciplan(1) says what the words mean.

# Fills COMPREPLY with the words of --model that the list at the cursor doesn't have yet.
_pciplan_model() {
    local begun='' each offered=''
    [[ $1 != *,* ]] || begun=${1%,*},
    for each in cardbus ide isa power reset snoop subtractive unclaimed unnumbered vga vga16 windows; do
        [[ ,$begun == *,$each,* || ($each == vga* && ,$begun == *,vga*) ]] || offered+="$begun$each "
    done
    [ -n "$begun" ] || offered+=all
    mapfile -t COMPREPLY < <(compgen -W "$offered" -- "$1")
}

# Fills COMPREPLY with what may stand at the cursor: a command, a text's file or another word, or an option that isn't
# said yet.
_pciplan() {
    local commands='here show check faults map size plan settle probe json picture explain version'
    local line=("${COMP_WORDS[@]}") place=$COMP_CWORD options said=' ' words='' most=2 count=0 ended='' word at
    COMPREPLY=()
    # What follows `json` is one of these commands with its words.
    if [[ ${line[1]} == json && $place -gt 1 ]]; then
        line=("${line[@]:1}") place=$((place - 1)) commands=${commands/*probe json*/show check faults map plan settle}
    fi
    word=${line[place]}
    if [ "$place" -eq 1 ]; then
        mapfile -t COMPREPLY < <(compgen -W "$commands" -- "$word")
        return
    fi
    [[ " $commands " == *" ${line[1]} "* ]] || return
    case ${line[1]} in
    here) options='--domain --from --log' most=1 words='faults map dump probe words' ;;
    show | size) options='' ;;
    check) options='--root' ;;
    faults) options='--also --host-io --host-mem --model --root --why' ;;
    map | picture) options='--also --host-io --host-mem --model --root' ;;
    plan) options='--io --mem --pref --root --why --writes' ;;
    settle) options='--also --anew --fixed --io --mem --model --pref --root --slots --spare --writes' ;;
    probe) options='--exact --least' ;;
    explain) options='' most=1 words=$commands ;;
    *) return ;;
    esac

    # Which options are said before the cursor, and how many other words. An equals sign is a word of its own here.
    for ((at = 2; at < place; at++)); do
        case $ended${line[at]} in
        --) ended=. ;;
        --root | --model | --host-io | --host-mem | --also | --io | --mem | --pref | --fixed | --spare | --slots | --domain | --from | --log)
            said+="${line[at]} "
            [ "${line[at + 1]}" != = ] || at=$((at + 1))
            at=$((at + 1))
            ;;
        --writes*)
            said+="${line[at]} "
            [ "${line[at + 1]}" != = ] || at=$((at + 2))
            ;;
        --*) said+="${line[at]} " ;;
        *) count=$((count + 1)) ;;
        esac
    done
    # For an option's own word nothing is offered, but for those of --model, --also, --from and --log, and for the forms of settle.
    if [ "$at" -ne "$place" ]; then
        [[ $said != *' --model ' || $word == = ]] || _pciplan_model "$word"
        [[ $said != *' --from ' || $word == = ]] || compopt -o dirnames
        [[ $said != *' --log ' && $said != *' --also ' || $word == = ]] || compopt -o default
        [[ $said != *' --writes ' || $word == = || ${line[1]} != settle ]] ||
            mapfile -t COMPREPLY < <(compgen -W 'grub setpci' -- "$word")
        return
    fi

    if [[ -z $ended && ($word == -* || $count -ge $most) ]]; then
        for at in $options; do
            [[ $said == *" $at "* || $at != "$word"* ]] || COMPREPLY+=("$at")
        done
    elif [[ $count -lt $most && -n $words ]]; then
        mapfile -t COMPREPLY < <(compgen -W "$words" -- "$word")
    elif [ "$count" -lt "$most" ]; then
        compopt -o default
    fi
}

complete -F _pciplan pciplan
