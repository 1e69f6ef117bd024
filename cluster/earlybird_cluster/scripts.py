"""The scripts that Redis runs, each at one moment: what they change is in its log and its replicas wholly or not at all."""
import hashlib

# A client's session begins at a partition, so that those before it may add no more; or with `resume` it goes on there after a
# fault, where no other one began: else `f`. Where the mark is another one, nothing is changed.
# KEYS: client, blocks. ARGV: session, seconds for which the name is kept, mark of the first line or nothing, `begin` or `resume`.
BEGIN = b"""
local before = redis.call('HGET', KEYS[1], 'session')
if ARGV[4] == 'resume' and before and before ~= ARGV[1] then return 'f' end
local mark = redis.call('HGET', KEYS[1], 'mark')
if ARGV[3] ~= '' and mark and mark ~= ARGV[3] then return {'0', '0', mark, {}} end
redis.call('HSET', KEYS[1], 'session', ARGV[1])
redis.call('HSETNX', KEYS[1], 'last', 0)
redis.call('HSETNX', KEYS[1], 'settled', 0)
if ARGV[3] ~= '' then redis.call('HSETNX', KEYS[1], 'mark', ARGV[3]) end
redis.call('EXPIRE', KEYS[1], ARGV[2])
redis.call('EXPIRE', KEYS[2], ARGV[2])
local held = redis.call('HMGET', KEYS[1], 'last', 'settled', 'mark')
return {held[1], held[2], held[3] or '', redis.call('ZRANGE', KEYS[2], 0, -1)}
"""

# A block of documents. `a ID`: it is in the log now. `k ID`: it was. `g`: the block before it isn't the last one of the client
# there. `f`: another session of the client began, or Redis lost it. XADD is the first to write, so without memory nothing is written.
# KEYS: log, end, client, blocks. ARGV: session, last line of the block before, first and last line of this one, settled line,
# seconds, text, number of its lines, channel, request.
ADD = b"""
local held = redis.call('HMGET', KEYS[3], 'session', 'last')
if held[1] ~= ARGV[1] then return 'f' end
local there = redis.call('ZRANGEBYSCORE', KEYS[4], ARGV[4], ARGV[4])[1]
if there then return 'k ' .. string.match(there, '%S+$') end
if held[2] ~= ARGV[2] then return 'g' end
local put = redis.call('HMGET', KEYS[2], 'entries', 'lines')
local entries, lines = (tonumber(put[1]) or 0) + 1, (tonumber(put[2]) or 0) + tonumber(ARGV[8])
local id = redis.call('XADD', KEYS[1], '*', 'd', ARGV[7], 'n', string.format('%d', entries), 'r', ARGV[9], 'i', ARGV[10])
redis.call('HSET', KEYS[2], 'id', id, 'entries', string.format('%d', entries), 'lines', string.format('%d', lines))
redis.call('HSET', KEYS[3], 'last', ARGV[4], 'settled', ARGV[5])
redis.call('ZREMRANGEBYSCORE', KEYS[4], '-inf', ARGV[5])
redis.call('ZADD', KEYS[4], ARGV[4], ARGV[3] .. ' ' .. ARGV[4] .. ' ' .. id)
redis.call('EXPIRE', KEYS[3], ARGV[6])
redis.call('EXPIRE', KEYS[4], ARGV[6])
return 'a ' .. id
"""

# A session ends: what is settled of it is written down, or with `forget` the client's name is forgotten.
# KEYS: client, blocks. ARGV: session, settled line, `forget` or `keep`.
END = b"""
if redis.call('HGET', KEYS[1], 'session') ~= ARGV[1] then return 0 end
if ARGV[3] == 'forget' then return redis.call('DEL', KEYS[1], KEYS[2]) end
redis.call('HSET', KEYS[1], 'settled', ARGV[2])
return redis.call('ZREMRANGEBYSCORE', KEYS[2], '-inf', ARGV[2])
"""

# Queries go to one worker of each partition: the first of its channels that has a listener, with the place in the log at this
# moment (or one that is given). Gives for each the number of the channel, 0 for none; or -1 where the epoch is over.
# KEYS: end and epoch of each partition. ARGV: epoch, number of channels of a partition, place or nothing, text; then for each
# partition its reply channel with the request and the number of lines, and its channels.
ASK = b"""
for part = 1, #KEYS / 2 do
  if tonumber(redis.call('GET', KEYS[2 * part]) or '0') > tonumber(ARGV[1]) then return -1 end
end
local channels, asked = tonumber(ARGV[2]), {}
for part = 1, #KEYS / 2 do
  local place = ARGV[3]
  if place == '' then place = redis.call('HGET', KEYS[2 * part - 1], 'id') or '0-0' end
  local head = 4 + (part - 1) * (channels + 1) + 1
  local text = place .. ' ' .. ARGV[head] .. '\\n' .. ARGV[4]
  asked[part] = 0
  for channel = 1, channels do
    if redis.call('SPUBLISH', ARGV[head + channel], text) > 0 then
      asked[part] = channel
      break
    end
  end
end
return asked
"""

# A log is cut before an entry, which stays; with `image` workers need one of it from now on.
# KEYS: log, end. ARGV: entry, `image` or nothing.
CUT = b"""
if ARGV[2] == 'image' then redis.call('HSET', KEYS[2], 'cut', ARGV[1]) end
return redis.call('XTRIM', KEYS[1], 'MINID', ARGV[1])
"""

ALL = (BEGIN, ADD, END, ASK, CUT)
NUMBERS = {script: hashlib.sha1(script).hexdigest().encode() for script in ALL}


def call(script, keys, words):
    """The words of a command that runs a script, which was loaded."""
    return (b"EVALSHA", NUMBERS[script], b"%d" % len(keys), *[key.encode() for key in keys], *words)
