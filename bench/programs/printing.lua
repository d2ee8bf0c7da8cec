for i = 0, 99999 do print('line ' .. i) end
