--- Notes whose engine ended: what is kept until another one has it, and the words of edits that the note doesn't take.
local bit = require('bit')
local text = require('vialshoal.text')

local M = {}

-- The seconds before an engine is started that ended soon after its start. They are doubled with each try, up to the second number.
local FIRST_PAUSE, MOST_PAUSE = 0.2, 5
-- So many cells are shown of words that the note didn't take.
local MOST_CELLS = 200

-- The hash of a text. Vim's own sha256() takes no text that has a NUL.

local K = {}
local BEGIN = {}

--- Fill the constants of SHA-256: 32 bits of the fractions of the cube roots and the square roots of the first primes.
local function set_constants()
  local number, count = 2, 0
  local function bits(root)
    return bit.tobit(math.floor((root - math.floor(root)) * 2 ^ 32))
  end
  while count < 64 do
    local is_prime = true
    for factor = 2, math.floor(math.sqrt(number)) do
      is_prime = is_prime and number % factor ~= 0
    end
    if is_prime then
      count = count + 1
      K[count] = bits(number ^ (1 / 3))
      BEGIN[count] = count <= 8 and bits(math.sqrt(number)) or nil
    end
    number = number + 1
  end
end
set_constants()

--- The 64 words of a block of 64 bytes.
local function schedule(data, at, w)
  for number = 1, 16 do
    local one, two, three, four = data:byte(at + 4 * number - 4, at + 4 * number - 1)
    w[number] = bit.bor(bit.lshift(one, 24), bit.lshift(two, 16), bit.lshift(three, 8), four)
  end
  for number = 17, 64 do
    local low, high = w[number - 15], w[number - 2]
    local first = bit.bxor(bit.ror(low, 7), bit.ror(low, 18), bit.rshift(low, 3))
    local second = bit.bxor(bit.ror(high, 17), bit.ror(high, 19), bit.rshift(high, 10))
    w[number] = bit.tobit(w[number - 16] + first + w[number - 7] + second)
  end
end

--- Adds a block to the hash so far, a list of eight numbers.
local function add_block(sum, w)
  local a, b, c, d, e, f, g, h = unpack(sum)
  for number = 1, 64 do
    local choice = bit.bxor(bit.band(e, f), bit.band(bit.bnot(e), g))
    local first = bit.tobit(h + bit.bxor(bit.ror(e, 6), bit.ror(e, 11), bit.ror(e, 25)) + choice + K[number] + w[number])
    local most = bit.bxor(bit.band(a, b), bit.band(a, c), bit.band(b, c))
    local second = bit.bxor(bit.ror(a, 2), bit.ror(a, 13), bit.ror(a, 22)) + most
    a, b, c, d, e, f, g, h = bit.tobit(first + second), a, b, c, bit.tobit(d + first), e, f, g
  end
  for number, more in ipairs({ a, b, c, d, e, f, g, h }) do
    sum[number] = bit.tobit(sum[number] + more)
  end
end

--- The SHA-256 of bytes, in hex.
function M.hash(data)
  local size = #data
  local tail = '\128' .. ('\0'):rep((55 - size) % 64) .. ('\0'):rep(3)
    .. string.char(math.floor(size / 2 ^ 29) % 256, math.floor(size / 2 ^ 21) % 256, math.floor(size / 2 ^ 13) % 256,
      math.floor(size / 2 ^ 5) % 256, size * 8 % 256)
  local whole, sum, w = size - size % 64, { unpack(BEGIN) }, {}
  for at = 1, whole, 64 do
    schedule(data, at, w)
    add_block(sum, w)
  end
  local rest = data:sub(whole + 1) .. tail
  for at = 1, #rest, 64 do
    schedule(rest, at, w)
    add_block(sum, w)
  end
  return table.concat(vim.tbl_map(bit.tohex, sum))
end

--- A name that no other editor has.
function M.new_editor()
  return M.hash(vim.inspect({ vim.fn.hostname(), vim.fn.getpid(), vim.loop.hrtime(), vim.loop.gettimeofday(), {} })):sub(1, 32)
end

-- The engine's end.

--- The seconds before an engine is started again, by how often that was done since one ran for a while.
function M.pause(tries)
  return tries == 0 and 0 or math.min(MOST_PAUSE, FIRST_PAUSE * 2 ^ math.min(10, tries - 1))
end

--- What the request `open` has besides to go on with the text that is here. Nothing, if there is no such text, or a change
--- of it was broken off.
function M.to_carry_over(note)
  if not note.is_away then
    return nil
  end
  note:flush()
  if note.is_lost then
    return nil
  end
  local made = {}
  for _, edit in ipairs(note:edits_after(note.step.edits)) do
    table.insert(made, { changes = edit.changes, join = edit.join })
  end
  return { version = note.step.version, edits = note.step.edits, hash = M.hash(text.join(note.lines, note.has_end)),
    -- As an empty list of Vim's, which is no object in JSON.
    made = made }
end

-- Words that the note didn't take.

--- What changes put, as far as later ones leave it. What was put at several places stands in lines, in the order of these.
function M.put_by(changes)
  local parts = {}
  for _, change in ipairs(changes) do
    local begin, ending, put = unpack(change)
    local before, met, after = {}, {}, {}
    for _, part in ipairs(parts) do
      local list = part[1] + #part[2] < begin and before or part[1] > ending and after or met
      table.insert(list, part)
    end
    local first, last = met[1] or { begin, '' }, met[#met] or { ending, '' }
    local words = first[2]:sub(1, math.max(0, begin - first[1])) .. put .. last[2]:sub(math.max(0, ending - last[1]) + 1)
    if words ~= '' then
      table.insert(before, { math.min(begin, first[1]), words })
    end
    for _, part in ipairs(after) do
      table.insert(before, { part[1] + #put - (ending - begin), part[2] })
    end
    parts = before
  end
  return table.concat(vim.tbl_map(function(part) return part[2] end, parts), '\n')
end

--- Keeps the words of edits of the user's that the note didn't take, and says why. Words that were typed elsewhere than
--- those that are kept stand in a line of their own.
function M.keep(note, why, edits)
  local changes = {}
  for _, edit in ipairs(edits) do
    vim.list_extend(changes, edit.changes)
  end
  local put, kept, place = M.put_by(changes), note.refused, edits[1] and edits[1].place
  why = why .. (note.beside and ' ' .. note.beside or '')
  if put == '' then
    return note.shows.words(why)
  elseif kept then
    local is_near = place == kept.place or place == kept.place + #kept.words
    kept.words = kept.words .. (is_near and '' or '\n') .. put
  else
    note.refused = { words = put, place = place }
  end
  note.shows.words(('%s What you typed is kept, and isn\'t in the note: "%s". :VialshoalPutBack puts it back.'):format(why,
    text.line(note.refused.words, MOST_CELLS)))
end

--- Types the words again that the note didn't take, where they were typed.
function M.put_back(note)
  local kept = note.refused
  if not kept then
    return note.shows.words('Nothing is kept that could be put back.')
  elseif not vim.bo[note.buffer].modifiable then
    return note.shows.words('Nothing can be typed in this note now, so it is still kept. Try again later.')
  end
  note.refused = nil
  note:flush()
  local place = math.min(kept.place, note:size())
  local row, column = text.position(note.lines, place)
  vim.api.nvim_buf_set_text(note.buffer, row, column, row, column, vim.split(kept.words, '\n', { plain = true }))
  note:flush()
  if not note.suggesting then
    note:go_to(math.min(place + #kept.words, note:size()))
  end
end

return M
