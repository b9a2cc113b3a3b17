# Of 1,005 faulty lines the first 1,000 are told, and how many more there are; of 1,000 all.
many() {
    echo 'routine many public budget 2'
    yes ' no' | head -n "$1"
    echo ' RET'
}
many 1005 | "$1" explain - 2>&1 | sed -n '1p;1000,$p'
many 1000 | "$1" explain - 2>&1 | sed -n '1p;1000,$p'
many 1001 | "$1" explain - 2>&1 | sed -n '1001,$p'
