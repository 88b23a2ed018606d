# Completes the words of bikleinu, liquid_page and liquid_folder in bash. Made by tools/manual.
_bikleinu() {
  local word=${COMP_WORDS[COMP_CWORD]} before=${COMP_WORDS[COMP_CWORD - 1]}
  compopt -o filenames 2>/dev/null
  # bash makes words of their own of NAME, = and FILE
  [ "$word" != = ] || word=
  case $1 in
    liquid_folder)
      local at=$COMP_CWORD
      if [ "${COMP_WORDS[1]}" = --missing ]; then at=$((at - 2)); fi
      if [ "$before" = --missing ]; then mapfile -t COMPREPLY < <(compgen -W 'fault nil' -- "$word"); return; fi
      [ "$at" -gt 3 ] && return
      if [ "$at" -ne 2 ]; then mapfile -t COMPREPLY < <(compgen -d -- "$word"); return; fi
      ;;
    bikleinu)
      local words= values=
      case ${COMP_WORDS[1]} in
        render) words='--text --data --define --partials --filters --assets --escape --out --quiet --missing --max-bytes --max-turns --decimals --dates --now --help' ;;
        merge) words='--text --out --into --data --define --partials --filters --assets --escape --records-format --delimiter --cells --names --separator --missing --max-bytes --max-turns --from --count --dry-run --no-flush --progress --quiet --decimals --dates --now --help' ;;
        check) words='--data --define --partials --filters --escape --format --warn --strict --ext --exclude --quiet --decimals --dates --now --help' ;;
        paths) words='--partials --filters --escape --format --help' ;;
      esac
      if [ "$COMP_CWORD" -eq 1 ]; then mapfile -t COMPREPLY < <(compgen -W 'render merge check paths help --help --version' -- "$word"); return; fi
      case ${COMP_WORDS[1]}:$before in
        render:--filters) values='decimals jekyll shopify' ;;
        render:--escape) values='html' ;;
        render:--missing) values='fault nil' ;;
        render:--decimals) values='fault text' ;;
        merge:--filters) values='decimals jekyll shopify' ;;
        merge:--escape) values='html' ;;
        merge:--records-format) values='csv json jsonl' ;;
        merge:--cells) values='text typed' ;;
        merge:--names) values='written snake' ;;
        merge:--missing) values='fault nil' ;;
        merge:--decimals) values='fault text' ;;
        check:--filters) values='decimals jekyll shopify' ;;
        check:--escape) values='html' ;;
        check:--format) values='text json github' ;;
        check:--warn) values='unescaped-attributes' ;;
        check:--decimals) values='fault text' ;;
        paths:--filters) values='decimals jekyll shopify' ;;
        paths:--escape) values='html' ;;
        paths:--format) values='text json-schema' ;;
      esac
      if [ -n "$values" ]; then mapfile -t COMPREPLY < <(compgen -W "$values" -- "$word"); return; fi
      if [ "${word:0:1}" = - ]; then mapfile -t COMPREPLY < <(compgen -W "$words" -- "$word"); return; fi
      ;;
  esac
  mapfile -t COMPREPLY < <(compgen -f -- "$word")
}
complete -F _bikleinu bikleinu liquid_page liquid_folder
