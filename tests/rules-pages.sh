#!/usr/bin/env bash
# Checks docs/RULES.md and docs/rules/ against the definitions: that each file that a page names is there, and that each public
# word of the definitions of histories, of verdicts and of services is named on some page. A file's name without a folder
# stands for one beside the last definitions that the page named with their folder. The last line is 'N passed, M failed'.
set -u
top=$(cd "$(dirname "${BASH_SOURCE[0]}")/.." && pwd)
cd "$top" || exit 1
passed=0
failed=0

# Counts one check, and tells what failed.
check() {
  if [ "$1" -eq 0 ]; then
    passed=$((passed + 1))
  else
    failed=$((failed + 1))
    echo "rules pages: $2"
  fi
}

# What a page has between backticks, one a line.
marked() { grep -o '`[^`]*`' "$1" | tr -d '`'; }

pages=(docs/RULES.md docs/rules/*.md)
for page in "${pages[@]}"; do
  folder=.
  while read -r name; do
    case $name in
      crates/*.antt) folder=${name%/*} ;;
      crates/*.rt) ;;
      docs/*.md) ;;
      *.antt) name=$folder/$name ;;
      *) continue ;;
    esac
    [ -f "$name" ]
    check $? "$page names $name, which is not there"
  done < <(marked "$page")
done

named=$(for page in "${pages[@]}"; do marked "$page"; done | sort -u)
shopt -s nullglob
for file in crates/{history_entries,history_laws,history_rules,history_steps,service_rule}/specs/*.antt \
  crates/script_model/specs/Verdicts.antt; do
  while read -r word; do
    grep -qxF -e "$word" <<<"$named"
    check $? "no page names $word of $file"
  done < <(sed -nE 's/^(abbrev pub|unfoldable pub|pub record|pub data) ([A-Za-z_0-9]+).*/\2/p' "$file" | sort -u)
done

echo "$passed passed, $failed failed"
[ "$failed" -eq 0 ]
