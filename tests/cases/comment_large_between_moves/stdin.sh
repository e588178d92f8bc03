printf 'PI\n+\n+7776FU\n'; printf "'"; head -c 1048576 /dev/zero | tr '\0' +; printf '\n-3334FU\n'
