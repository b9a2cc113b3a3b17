# Of 301 instructions the first 300 are refused: 32,768 / 302, rounded down, is 108.
{
    echo 'routine many public budget 301'
    yes ' LDB w0 p0 0' | head -n 300
    echo ' RET'
} | "$1" explain - 2>&1 | awk '
    /refused by V4/ { told++ }
    / more / { print told " are told; behind line " line ": " $0 }
    { line = $1 }
    END { print $0 }'
