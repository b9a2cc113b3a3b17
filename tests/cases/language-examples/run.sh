# Each example in the structured language prints on the script of its assembly text what that prints.
export LC_ALL=C
cd "$top/examples" || exit 1
for source in *.tkv; do
    name=${source%.tkv}
    if [ -f "$name.script" ]; then
        script=$(cat "$name.script")
    else
        script=$(sed '1,/^end$/d' "$name.session")
    fi
    wanted=$(printf '%s\n' "$script" | "$1" call "$name.asm" 2>&1)
    printed=$(printf '%s\n' "$script" | "$1" call "$source" 2>&1)
    if [ -n "$wanted" ] && [ "$wanted" = "$printed" ]; then
        echo "$name: the same"
    else
        printf '%s: differs: %s\n' "$name" "$printed"
    fi
done
