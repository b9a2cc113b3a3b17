-- The routine of spin.session as a loop of Lua: the same work on the same words.
local w0, w1, w2, w3, w4 = 7, 0, 0, 0, 0
for _ = 0, 6000 do
    for _ = 0, 10000 do
        w1 = (w1 + w0) & 65535
        w2 = (w1 - w3) & 65535
        w3 = w2 & 255
        if not (w3 < w4) then w4 = (w3 * 3) & 65535 end
    end
end
print(w1)
