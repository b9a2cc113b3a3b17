# What begins as an image does is one, and this is cut off.
printf GRT1 | "$1" explain -
