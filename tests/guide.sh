#!/usr/bin/env bash
# The blocks of README.md, and then those of docs/GUIDE.md and docs/PROFILES.md, in their order and in one folder: what a line that begins with `$` prints
# is what stands under it. Where the machine has no `sqlite3`, Python's stands in for it.
source "$(dirname "$(readlink -f "${BASH_SOURCE[0]}")")/lib/cases.sh"
need_program

mkdir "$scratch/bin" "$scratch/work"
ln -s "$program" "$scratch/bin/lotbook"
ln -s "$examples" "$scratch/work/examples"
ln -s "$program" "$scratch/work/lotbook" # as README.md calls it
if ! command -v sqlite3 >/dev/null; then
    cat >"$scratch/bin/sqlite3" <<'END'
#!/usr/bin/env python3
import sqlite3, sys
for row in sqlite3.connect(sys.argv[1]).execute(sys.argv[2]):
    print("|".join(str(column) for column in row))
END
    chmod +x "$scratch/bin/sqlite3"
fi
export PATH=$scratch/bin:$PATH
cd "$scratch/work" || exit 1

# done_with: what the last command printed is what stood under it.
said=""
done_with() {
    if [[ -z $said ]]; then return; fi
    if diff "$scratch/wanted" "$scratch/printed" >"$scratch/differs"; then
        pass "$said"
    else
        fail "$said" "$(head -n 6 "$scratch/differs" | tr '\n' '|')"
    fi
}

: >"$scratch/wanted"
cat "$root/README.md" "$root/docs/GUIDE.md" "$root/docs/PROFILES.md" | while IFS= read -r line; do
    case $line in
        '    $ '*)
            done_with
            said=${line#'    $ '}
            : >"$scratch/wanted"
            bash -c "$said" >"$scratch/printed" 2>&1 </dev/null
            ;;
        '    '*) printf '%s\n' "${line#    }" >>"$scratch/wanted" ;;
    esac
done
done_with
finish
