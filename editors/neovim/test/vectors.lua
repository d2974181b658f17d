--- What an editor does with which lines: the cases that editors in all languages run.
local fake = require('test.fake')
local support = require('test.support')
local review = require('vialshoal.review')
local Suggesting = require('vialshoal.suggesting')
local text = require('vialshoal.text')

local function read(path)
  local file = assert(io.open(path))
  local data = file:read('*a')
  file:close()
  return vim.json.decode(data, { luanil = { object = true } })
end

--- Makes a user's change.
local function change(note, from, to, new)
  local lines = vim.api.nvim_buf_get_lines(note.buffer, 0, -1, false)
  if note.has_end and from > note:size() then
    -- Behind the last line end a user makes a new line.
    return vim.api.nvim_buf_set_lines(note.buffer, -1, -1, false, (text.split(new)))
  end
  local row, column = text.position(lines, from)
  local last_row, last_column = text.position(lines, to)
  vim.api.nvim_buf_set_text(note.buffer, row, column, last_row, last_column, vim.split(new, '\n', { plain = true }))
end

local function play(case)
  local note = fake.note(case.open)
  -- As where one types: there is no such mode in a script.
  note.is_between = function() return true end
  for _, step in ipairs(case.steps) do
    local of = case.name .. ': ' .. vim.inspect(step)
    note.now = step.at or note.now
    if step.user then
      for _, each in ipairs(step.user) do
        change(note, unpack(each))
      end
      note:flush_command()
    elseif step.line then
      note:take(step.line)
    elseif step.place then
      note:go_to(step.place[1])
    elseif step.key then
      support.same(step.waits, note:is_behind(), of)
    elseif step.patience then
      note:caught_up()
    else
      error('This is no step: ' .. of)
    end
    if step.sends then
      support.same(step.sends, fake.sent(note), of)
    end
    local has = { text = support.text(note), version = note.version, made = note.made, types = note.state.types,
      words = note.told.words, cursors = note.cursors, place = { note:place_of(vim.api.nvim_win_get_cursor(0)) } }
    for name, value in pairs(step['then'] or {}) do
      if name == 'cursor' then
        support.same(value, note:place_of(vim.api.nvim_win_get_cursor(0)), of)
      else
        -- More can be said behind words, as where others are kept.
        support.same(value, name == 'words' and has[name] and has[name]:sub(1, #value) or has[name], of)
      end
    end
    fake.check(note)
  end
end

local function as_gathered(one)
  return one and one ~= vim.NIL and { begin = one[1], ending = one[2], new = one[3] } or nil
end

support.test('what is typed is gathered as the vectors say', function()
  local cases = read(support.top .. '/../../share/engine/vectors/suggesting.json').cases
  assert(#cases > 20)
  for _, case in ipairs(cases) do
    local found, cursor, is_done = Suggesting.gathered(as_gathered(case.gathered), { case.from, case.to, case.put }, case.back or 0)
    support.same({ as_gathered(case['then']) or false, case.cursor, case.sends or false }, { found or false, cursor, is_done }, case.name)
  end
end)

--- Where the threads are that are shown.
local function places_of_threads(note)
  local found = vim.empty_dict()
  for _, each in ipairs(review.shown(note)) do
    local first, last = each.first, each.last
    found[each.thread.id] = { text.offset(note.lines, first[1]) + first[2], text.offset(note.lines, last[1]) + last[2] }
  end
  return found
end

--- Plays a case of what is remarked.
local function play_remarks(case)
  local note, asked = fake.note(case.open)
  for _, step in ipairs(case.steps) do
    local of = case.name .. ': ' .. vim.inspect(step)
    fake.sent(note)
    if step.answer then
      note:take(vim.tbl_extend('force', { answer = 'remarks', id = asked }, step.answer))
    elseif step.line then
      note:take(step.line)
    elseif step.user then
      for _, each in ipairs(step.user) do
        change(note, unpack(each))
      end
      note:flush_command()
    else
      review.look(note)
      local sent = fake.sent(note)
      support.same(step.asks and { { 'remarks', step.asks } } or {},
        vim.tbl_map(function(line) return { line['do'], line.version } end, sent), of)
      asked = sent[1] and sent[1].id
    end
    if step['then'] then
      support.same(step['then'], places_of_threads(note), of)
    end
  end
end

for _, case in ipairs(read(support.top .. '/../../share/engine/vectors/remarks.json').cases) do
  support.test(case.name, function() play_remarks(case) end)
end

-- Else a cursor can't be behind a line's last character, where one is typing.
vim.o.virtualedit = 'onemore'
local cases = read(support.top .. '/../../share/engine/vectors/client.json').cases
assert(#cases > 20)
-- What Vim doesn't do: a selection has its last character, and an empty last line isn't shown.
local other = { ['selections end before a character'] = true, ['an empty last line is shown'] = true }
for _, case in ipairs(cases) do
  if (case.units == 'any' or case.units == 'utf-8') and not other[case.optional] then
    support.test(('%s (%s)'):format(case.name, case.units), function() play(case) end)
  end
end
