# Completion of dckit and of debconf's commands over it, for bash. Nothing is read before a key is pressed.

# The owners in the databases of the configuration, a line each.
_dckit_owners() {
    local conf=${DEBCONF_SYSTEMRC:-/etc/debconf.conf} files
    [[ -r $conf ]] || conf=/usr/share/debconf/debconf.conf
    mapfile -t files < <(sed -n 's/^[Ff]ilename:[[:blank:]]*//p' "$conf" 2>/dev/null)
    sed -n 's/^Owners: //p' "${files[@]}" 2>/dev/null | tr -s ', ' '\n' | grep -v / | sort -u
}

# The packages with templates.
_dckit_packages() {
    local file
    for file in /var/lib/dpkg/info/*.templates; do
        file=${file##*/}
        file=${file%.templates}
        echo "${file%%:*}"
    done
}

# _dckit_choose WORDS: those that begin as what is typed.
_dckit_choose() {
    mapfile -t COMPREPLY < <(compgen -W "$1" -- "$2")
}

# _dckit_value OPTION TYPED: the values of an option, if it is one that has some.
_dckit_value() {
    case $1 in
        -f | --frontend) _dckit_choose "noninteractive teletype dialog readline gnome kde web text editor" "$2" ;;
        -p | --priority) _dckit_choose "low medium high critical" "$2" ;;
        -o | --owner) _dckit_choose "$(_dckit_owners)" "$2" ;;
        *) return 1 ;;
    esac
}

# _dckit_files PATTERN TYPED: folders, and files of that pattern.
_dckit_files() {
    compopt -o filenames 2>/dev/null
    mapfile -t COMPREPLY < <(compgen -d -- "$2"; compgen -f -X "!$1" -- "$2")
}

_dckit() {
    local typed=${COMP_WORDS[COMP_CWORD]} before=${COMP_WORDS[COMP_CWORD - 1]} command=${COMP_WORDS[0]##*/} place=$COMP_CWORD
    local options="-f -p --frontend= --priority="
    COMPREPLY=()
    if [[ $typed == = ]]; then
        typed=
    elif [[ $before == = ]]; then
        before=${COMP_WORDS[COMP_CWORD - 2]}
    fi
    if [[ $command == dckit ]]; then
        if ((COMP_CWORD == 1)); then
            _dckit_choose "run communicate loadtemplate show copydb set-selections get-selections drill" "$typed"
            return
        fi
        command="dckit ${COMP_WORDS[1]}"
        place=$((COMP_CWORD - 1))
    fi
    case $command in
        "dckit run" | debconf)
            _dckit_value "$before" "$typed" && return
            [[ $typed == -* ]] && { _dckit_choose "-o --owner= $options" "$typed"; return; }
            mapfile -t COMPREPLY < <(compgen -c -- "$typed") ;;
        "dckit communicate") ((place > 1)) || _dckit_choose "$(_dckit_owners)" "$typed" ;;
        debconf-communicate)
            _dckit_value "$before" "$typed" && return
            _dckit_choose "$(_dckit_owners) $options --help" "$typed" ;;
        *loadtemplate)
            if ((place == 1)); then _dckit_choose "$(_dckit_owners)" "$typed"; else _dckit_files '*templates*' "$typed"; fi ;;
        "dckit show" | debconf-show) _dckit_choose "$(_dckit_packages) --db= --listowners --listdbs" "$typed" ;;
        "dckit copydb" | debconf-copydb) _dckit_choose "--pattern= --owner-pattern= --config=Name:" "$typed" ;;
        debconf-get-selections) _dckit_choose "--installer --help" "$typed" ;;
        *set-selections)
            if [[ $typed == -* || $command == "dckit "* ]]; then
                _dckit_choose "-v -c -u --verbose --checkonly --unseen" "$typed"
            else
                _dckit_files '*' "$typed"
            fi ;;
        debconf-escape) _dckit_choose "-e -u --escape --unescape" "$typed" ;;
        debconf-apt-progress)
            _dckit_choose "--logfile --logstderr --from --to --dlwaypoint --no-progress --config --start --stop --" "$typed" ;;
        dpkg-preconfigure)
            _dckit_value "$before" "$typed" && return
            [[ $typed == -* ]] && { _dckit_choose "--apt --help $options" "$typed"; return; }
            _dckit_files '*.deb' "$typed" ;;
        dpkg-reconfigure)
            _dckit_value "$before" "$typed" && return
            _dckit_choose "$(_dckit_packages) -u --unseen-only --default-priority --force --no-reload --help $options" "$typed" ;;
    esac
    [[ ${COMPREPLY[*]} != *= ]] || compopt -o nospace 2>/dev/null
    return 0
}

complete -F _dckit dckit debconf debconf-communicate debconf-loadtemplate debconf-show debconf-copydb debconf-set-selections debconf-get-selections debconf-escape debconf-apt-progress dpkg-preconfigure dpkg-reconfigure
