--- Text as Neovim has it, in lines, and as the engine counts it, in bytes from the front.
local M = {}

--- Whether a byte goes on with a character that began before it.
local function goes_on(byte)
  return byte ~= nil and byte >= 0x80 and byte < 0xc0
end

--- How far something holds, `most` at most. `holds` says whether it does for so many more behind so many. Long steps
--- are tried first, since a line can have a million bytes.
local function reach(most, holds)
  local far, step = 0, 1
  while step > 0 do
    if far + step <= most and holds(far, step) then
      far, step = far + step, step * 2
    else
      step = math.floor(step / 2)
    end
  end
  return far
end

--- How much the two begin with alike, in whole characters, `most` bytes at most.
local function same_head(old, new, most)
  local head = reach(most, function(far, step)
    return old:sub(far + 1, far + step) == new:sub(far + 1, far + step)
  end)
  while head > 0 and (goes_on(old:byte(head + 1)) or goes_on(new:byte(head + 1))) do
    head = head - 1
  end
  return head
end

--- How much the two end with alike, in whole characters, `most` bytes at most.
local function same_tail(old, new, most)
  local tail = reach(most, function(far, step)
    return old:sub(#old - far - step + 1, #old - far) == new:sub(#new - far - step + 1, #new - far)
  end)
  while tail > 0 and goes_on(old:byte(#old - tail + 1)) do
    tail = tail - 1
  end
  return tail
end

--- How much two texts begin with alike, `most` bytes at most, and how much the rest of them ends with alike.
local function same_ends(old, new, most)
  local head = same_head(old, new, most)
  return head, same_tail(old, new, math.min(#old, #new) - head)
end

--- What has changed from one text to another, as a list of no or one change. The texts begin at `base`. The
--- change isn't behind `hint`, where that is given: who types an `a` between others shows which is new.
function M.change(old, new, base, hint)
  if old == new then
    return {}
  end
  local least = math.min(#old, #new)
  local head, tail = same_ends(old, new, math.min(least, hint or least))
  if head + tail < least then
    -- With a hint that is wrong, what stays as it is would be typed anew.
    local further, rest = same_ends(old, new, least)
    if further + rest > head + tail then
      head, tail = further, rest
    end
  end
  return { { base + head, base + #old - tail, new:sub(head + 1, #new - tail) } }
end

--- The changes by which a text takes the place of another one, at `place`, word by word, and how many words stay and
--- differ. So words that stay are their authors', and what others write among them stays there.
local function by_words(old, new, place)
  local changes, stay, differ, from, at = {}, 0, 0, 1, 1
  while from <= #old or at <= #new do
    local space, word = old:match('^([ \t\n]*)([^ \t\n]*)', from)
    local new_space, new_word = new:match('^([ \t\n]*)([^ \t\n]*)', at)
    if space ~= new_space then
      table.insert(changes, { place, place + #space, new_space })
    end
    from, at, place = from + #space + #word, at + #new_space + #new_word, place + #new_space
    if word ~= new_word then
      differ = differ + 1
      vim.list_extend(changes, M.change(word, new_word, place))
    elseif word ~= '' then
      stay = stay + 1
    end
    place = place + #new_word
  end
  return changes, stay, differ
end

--- The changes of a line, which begins at `base`, as `:s///g` makes them: where most words stay, by words.
local function in_line(old, found, base)
  local change = found[1]
  if not change then
    return found
  end
  local changes, stay, differ = by_words(old:sub(change[1] - base + 1, change[2] - base), change[3], change[1])
  -- The first word and the last one differ, so it can be one more.
  return stay > 0 and stay + 1 >= differ and changes or found
end

--- The changes by which lines were joined, which begin at `base` and are `gone` by `change`: Vim puts their words behind
--- the line before them first, by the change `before`. nil where that isn't so.
function M.joined(before, change, gone, base)
  if before[1] ~= before[2] or change[3] ~= '' then
    return nil
  end
  local behind = change[1] - before[1] - #before[3]
  if behind == 1 and change[1] == base and gone:sub(-1) == '\n' then
    behind, gone = 0, '\n' .. gone:sub(1, -2)
  end
  if behind ~= 0 then
    return nil
  end
  local changes, _, differ = by_words(gone, before[3], before[1])
  return differ == 0 and changes or nil
end

--- What has changed from some lines to others: where they are as many, line by line, so that what is between two
--- changes stays what it was. A line end follows each of them, but not the last one where `is_last`. `hints` has the
--- columns where changes are said to begin, by the lines, of these, from 0.
function M.changes(old, new, base, is_last, hints)
  local found = {}
  if #old == #new then
    for number, line in ipairs(old) do
      vim.list_extend(found, in_line(line, M.change(line, new[number], base, hints[number - 1]), base))
      base = base + #new[number] + 1
    end
    return found
  end
  local row, column = next(hints)
  local is_one = row and row >= 0 and next(hints, row) == nil
  local most = is_one and M.offset(old, row) + column or nil
  local ending = is_last and '' or '\n'
  local function text(lines)
    return #lines == 0 and '' or table.concat(lines, '\n') .. ending
  end
  return M.change(text(old), text(new), base, most)
end

--- The part of some lines that differs in others, as Neovim's API counts lines, and where that ends in the others.
function M.differing(old, new)
  local first, least = 0, math.min(#old, #new)
  while first < least and old[first + 1] == new[first + 1] do
    first = first + 1
  end
  local same = 0
  while same < least - first and old[#old - same] == new[#new - same] do
    same = same + 1
  end
  return first, #old - same, #new - same
end

--- The least key of a table; nil where it has none.
function M.least(keys)
  local found
  for each in pairs(keys) do
    found = math.min(found or each, each)
  end
  return found
end

if jit then
  -- The LuaJIT of 2022 that Neovim 0.7 has on Debian 12 compiles this loop wrong: what it finds is lost at times.
  jit.off(M.least)
end

--- Some bytes of lines, from a row and a column on. A line end that isn't shown is one of them.
local function slice(lines, row, column, size)
  local found, number = lines[row + 1]:sub(column + 1), row + 2
  while #found < size do
    found, number = found .. '\n' .. (lines[number] or ''), number + 1
  end
  return found:sub(1, size)
end

--- Where a text came into lines that has come to `at`, so far behind a row and a column, if it can as well have come in
--- there; and the text that has then.
function M.moved_up(lines, row, column, behind, new, at)
  if behind <= 0 then
    return at, new
  end
  local found = slice(lines, row, column, behind + #new)
  if found:sub(1, behind) ~= found:sub(#new + 1) then
    return at, new
  end
  return at - behind, found:sub(1, #new)
end

--- The lines of a text, and whether its last line end is hidden, as Vim does with those of files.
function M.split(text)
  local lines = vim.split(text, '\n', { plain = true })
  if #lines > 1 and lines[#lines] == '' then
    table.remove(lines)
    return lines, true
  end
  return lines, false
end

--- The text of lines, and of the line end that isn't shown.
function M.join(lines, has_end)
  return table.concat(lines, '\n') .. (has_end and '\n' or '')
end

--- The bytes before a line; the first has the number 0.
function M.offset(lines, row)
  local bytes = 0
  for number = 1, math.min(row, #lines) do
    bytes = bytes + #lines[number] + 1
  end
  return bytes
end

--- The line and the column of a place in bytes, which is none behind the last line's end.
function M.position(lines, offset)
  for number, line in ipairs(lines) do
    if offset <= #line or number == #lines then
      return number - 1, math.min(offset, #line)
    end
    offset = offset - #line - 1
  end
end

--- The function that position() is for many places of one text.
function M.positions(lines)
  local begins, at = {}, 0
  for number, line in ipairs(lines) do
    begins[number] = at
    at = at + #line + 1
  end
  return function(offset)
    local low, high = 1, #lines
    while low < high do
      local middle = math.ceil((low + high) / 2)
      if begins[middle] <= offset then
        low = middle
      else
        high = middle - 1
      end
    end
    return low - 1, math.min(offset - begins[low], #lines[low])
  end
end

--- Puts lines in the place of others, `first` to `last` as Neovim's API counts them.
function M.splice(lines, first, last, new)
  local grows, count = #new - (last - first), #lines
  if grows > 0 then
    for number = count, last + 1, -1 do
      lines[number + grows] = lines[number]
    end
  elseif grows < 0 then
    for number = last + 1, count - grows do
      lines[number + grows] = lines[number]
    end
  end
  for number, line in ipairs(new) do
    lines[first + number] = line
  end
end

--- Whether a change brings whole lines at the begin of one: a place there goes with that line. An empty text has none.
function M.opens_line(lines, has_end, change)
  local _, column = M.position(lines, change[1])
  local is_empty = #lines == 1 and lines[1] == '' and not has_end
  return column == 0 and change[1] == change[2] and change[3]:sub(-1) == '\n' and not is_empty
end

--- Where a place is after a change: behind the same character, as others see it; where it `goes`, before the one that it
--- was before.
function M.moved(place, change, goes)
  local from, to, text = change[1], change[2], change[3]
  if place < from or place == from and not (goes and from == to) then
    return place
  elseif place < to then
    return from
  end
  return place + #text - (to - from)
end

-- The bytes that may follow a character's first one, by that; all others after them are 0x80 to 0xbf.
local SECOND = { [0xe0] = { 0xa0, 0xbf }, [0xed] = { 0x80, 0x9f }, [0xf0] = { 0x90, 0xbf }, [0xf4] = { 0x80, 0x8f } }

--- How many bytes the character has that begins at a place; nil where none does.
local function length_at(text, at)
  local first = text:byte(at)
  local length = first < 0x80 and 1 or first < 0xc2 and 0 or first < 0xe0 and 2 or first < 0xf0 and 3
    or first < 0xf5 and 4 or 0
  local second = SECOND[first] or { 0x80, 0xbf }
  for number = 1, length - 1 do
    local byte = text:byte(at + number) or 0
    local low, high = 0x80, 0xbf
    if number == 1 then
      low, high = second[1], second[2]
    end
    if byte < low or byte > high then
      return nil
    end
  end
  return length > 0 and length or nil
end

--- The text with U+FFFD for each byte that is of no character.
function M.clean(text)
  if not text:find('[\128-\255]') then
    return text
  end
  local parts, at, begin = {}, 1, 1
  while at <= #text do
    local length = length_at(text, at)
    if not length then
      parts[#parts + 1] = text:sub(begin, at - 1) .. '\239\191\189'
      begin = at + 1
    end
    at = at + (length or 1)
  end
  if begin == 1 then
    return text
  end
  return table.concat(parts) .. text:sub(begin)
end

--- Whether a name has a character that none may have: controls, and what turns the direction of writing.
local function is_no_name(char)
  local code = vim.fn.char2nr(char)
  return code < 0x20 or code >= 0x7f and code < 0xa0 or code == 0x61c or code == 0x200e or code == 0x200f
    or code >= 0x2028 and code <= 0x202e or code >= 0x2066 and code <= 0x2069
end

--- A name as it may be shown, with 40 characters or `most`.
function M.name(name, most)
  local found = {}
  for _, char in ipairs(vim.fn.split(M.clean(type(name) == 'string' and name or ''), '\\zs')) do
    if not is_no_name(char) and #found < (most or 40) then
      found[#found + 1] = char
    end
  end
  return table.concat(found)
end

local INSTEAD = '\239\191\189'

--- What somebody wrote as it may be shown: with no controls but a tab and a line end, and nothing that turns the
--- direction of writing.
function M.words(words)
  local found = M.clean(type(words) == 'string' and words or '')
  for _, pattern in ipairs({ '[%z\1-\8\11-\31\127]', '\194[\128-\159]', '\226\128[\168-\174]', '\226\129[\166-\169]' }) do
    found = found:gsub(pattern, INSTEAD)
  end
  return found
end

-- For a cell of a line no more bytes are looked at of words, which can be long.
local MOST_OF_CELL = 16

--- As much of words, from their begin, as so many cells have room for.
local function begin_of(words, most)
  local found = vim.fn.strcharpart(words, 0, most)
  while vim.fn.strdisplaywidth(found) > most do
    found = vim.fn.strcharpart(found, 0, vim.fn.strchars(found) - 1)
  end
  return found
end

--- The same in a line of so many cells.
function M.line(words, most)
  local begun = type(words) == 'string' and words:sub(1, most * MOST_OF_CELL) or ''
  local found = vim.trim((M.words(begun):gsub('[ \t\n]+', ' ')))
  local short = begin_of(found, most)
  return short == found and found or short .. '..'
end

--- All of it, in lines of so many cells at most, which break between words where they can.
function M.lines(words, most)
  local found = {}
  for _, rest in ipairs(vim.split(vim.trim((M.words(words):gsub('\t', ' '))), '\n', { plain = true })) do
    local line = begin_of(rest, most)
    while line ~= rest do
      line = rest:sub(1, #line + 1):match('^(.*) ') or line
      table.insert(found, line)
      rest = vim.trim(rest:sub(#line + 1))
      line = begin_of(rest, most)
    end
    table.insert(found, rest)
  end
  return found
end

return M
