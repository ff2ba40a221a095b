#!lua name=peers

-- The procedures that are compared, for Redis. A node is a hash `n:` and its number, with the fields 0 to 3 and, as c0 to c7, its children.

-- Adds to a node of the tree. Answers what it has then.
redis.register_function('add', function(keys, args)
    return redis.call('HINCRBY', keys[1], '0', args[1])
end)

-- Goes from the root down to a leaf and adds to it. Answers what it has then.
redis.register_function('path', function(keys, args)
    local key = keys[1]
    for step = 1, 4 do
        key = 'n:' .. redis.call('HGET', key, 'c' .. args[step])
    end
    return redis.call('HINCRBY', key, '0', args[5])
end)

-- Answers the sum of a node's eight children.
redis.register_function('sum', function(keys, args)
    local children = redis.call('HMGET', keys[1], 'c0', 'c1', 'c2', 'c3', 'c4', 'c5', 'c6', 'c7')
    local total = 0
    for place = 1, 8 do
        total = total + redis.call('HGET', 'n:' .. children[place], '0')
    end
    return total
end)

local function turns(x)
    for turn = 1, 2500 do
        local a = x + 3
        local b = a * 2
        local c = b + 3
        x = c - a
    end
    return x
end

-- Works long on a node, and then as long on a child of it. Answers what came of it.
redis.register_function('long', function(keys, args)
    local x = turns(tonumber(args[1]))
    redis.call('HSET', keys[1], '1', x)
    local child = 'n:' .. redis.call('HGET', keys[1], 'c' .. args[2])
    x = turns(x)
    redis.call('HSET', child, '2', x)
    return x
end)
