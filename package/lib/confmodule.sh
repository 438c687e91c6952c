# The old library for package scripts in sh, to be read by `.`. It is that of `confmodule`, but every status is 0, _RET is the whole reply, and no
# code stands in front of RET.

. /usr/share/debconf/confmodule

echo "$0: /usr/share/debconf/confmodule.sh is deprecated; use /usr/share/debconf/confmodule" >&2

_db_cmd() {
    RET=
    _db_send "$@" || :
    _RET=$_db_reply
    case $_RET in
        "1 "*) _db_unescape "${_RET#1 }" ;;
        *" "*) RET=${_RET#* } ;;
    esac
}
