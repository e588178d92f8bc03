# Each byte but a space and a line end, alone and in a word; and then one in a position line, which is refused.
byte=0
while [ "$byte" -le 255 ]; do
    case $byte in
        10 | 13 | 32) ;;
        *)
            b=\\$(printf '%03o' "$byte")
            printf "$b$b$b$b\nusi$b\ngo$b$b\n"
            ;;
    esac
    byte=$((byte + 1))
done
printf 'position startpos\nposition startpos moves \377\ngo\n'
