--- With no engine: what is sent to the next one as an engine ends, what each of its answers does, and what becomes of
--- edits that the note doesn't take.
local again = require('vialshoal.again')
local review = require('vialshoal.review')
local fake = require('test.fake')
local support = require('test.support')

local test, same = support.test, support.same

--- Puts words at a place in bytes.
local function puts(note, words, place)
  local row, column = require('vialshoal.text').position(note.lines, place)
  vim.api.nvim_buf_set_text(note.buffer, row, column, row, column, vim.split(words, '\n', { plain = true }))
  note:flush_command()
end

--- What the next engine is told.
local function starts(note)
  note.waiting = { [0] = function(answer)
    if not answer.error then
      note:opened(answer)
    end
  end }
  return again.to_carry_over(note)
end

local function answers(note, line)
  note:take(vim.tbl_extend('force', { answer = 'open', id = 0 }, line))
end

local function wanted(version, edits, text, made)
  local given = vim.tbl_map(function(changes) return { changes = changes } end, made)
  return { version = version, edits = edits, hash = vim.fn.sha256(text), made = given }
end

test('the hash of a text is its SHA-256', function()
  math.randomseed(8)
  for size = 0, 300 do
    local bytes = {}
    for number = 1, size do
      bytes[number] = string.char(math.random(1, 255))
    end
    local words = table.concat(bytes)
    same(vim.fn.sha256(words), again.hash(words), 'size ' .. size)
  end
  for _, size in ipairs({ 4096, 100000, 1000003 }) do
    local words = ('tea 漢\n'):rep(math.ceil(size / 8)):sub(1, size)
    same(vim.fn.sha256(words), again.hash(words), 'size ' .. size)
  end
  -- Vim's own takes none with a NUL.
  same('59b271ae1bbcb1d31d41929817f4b16fb439eb4f31520b5ad1d5ce98920a7138', again.hash('a\0b'))
end)

test('two editors have two names', function()
  local one, other = again.new_editor(), again.new_editor()
  assert(one ~= other and one:find('^[%w-]+$') and #one <= 64, one)
end)

test('typing goes on where an engine ended', function()
  local note = fake.with('tea\n')
  puts(note, 'a', 0)
  fake.sent(note)
  same(false, note:engine_ended())
  puts(note, 'b漢', 1)
  same({}, fake.sent(note))
  same(wanted(0, 0, 'ab漢tea\n', { { { 0, 0, 'a' } }, { { 1, 1, 'b漢' } } }), starts(note))
  puts(note, 'c', 5)
  same({}, fake.sent(note))
  answers(note, { version = 7, edits = 2, has = 1 })
  same({ { ['do'] = 'edit', version = 7, edits = 3, changes = { { 5, 5, 'c' } } } }, fake.sent(note))
  same('ab漢ctea\n', support.text(note))
  -- Others' changes follow, once the engine has all.
  note:take({ notice = 'changes', version = 8, edits = 2, changes = { { 0, 0, 'no ' } } })
  note:take({ notice = 'changes', version = 9, edits = 3, changes = { { 0, 0, 'my ' } } })
  note:take({ answer = 'edit', edits = 3 })
  same('my ab漢ctea\n', support.text(note))
  same({ false, {} }, { vim.bo[note.buffer].modified, note.edits })
  fake.check(note)
end)

test('the next engine can end, too', function()
  local note = fake.with('tea\n')
  puts(note, 'a', 0)
  note:engine_ended()
  starts(note)
  puts(note, 'b', 1)
  -- Before it answers.
  note:engine_ended()
  same(wanted(0, 0, 'abtea\n', { { { 0, 0, 'a' } }, { { 1, 1, 'b' } } }), starts(note))
  answers(note, { version = 3, edits = 2, has = 2 })
  puts(note, 'c', 2)
  -- Before it answers the next edit.
  note:engine_ended()
  same(wanted(3, 2, 'abctea\n', { { { 2, 2, 'c' } } }), starts(note))
end)

test('what is in step is not sent again', function()
  local note = fake.with('tea\n')
  local function sent_again()
    note:engine_ended()
    local sent = starts(note)
    answers(note, { version = note.version, edits = note.made })
    return sent
  end
  -- By a notice that counts all edits.
  puts(note, 'a', 0)
  note:take({ notice = 'changes', version = 4, edits = 1, changes = { { 4, 4, '!' } } })
  note:take({ answer = 'edit', edits = 1 })
  same(wanted(4, 1, 'atea!\n', {}), sent_again())
  -- By an answer that says so; one of another version doesn't.
  puts(note, 'b', 0)
  note:take({ answer = 'edit', edits = 2, version = 5 })
  same({ version = 4, edits = 1 }, note.step)
  puts(note, 'c', 0)
  note:take({ answer = 'edit', edits = 3, version = 4 })
  same({ version = 4, edits = 3 }, note.step)
  same(wanted(4, 3, 'cbatea!\n', {}), sent_again())
  -- One that isn't the answer to the last edit doesn't.
  puts(note, 'd', 0)
  puts(note, 'e', 0)
  note:take({ answer = 'edit', edits = 4, version = 4 })
  same(wanted(4, 3, 'edcbatea!\n', { { { 0, 0, 'd' } }, { { 0, 0, 'e' } } }), sent_again())
end)

test('what waits to be sent is one edit', function()
  local note = fake.with('tea\n')
  for _ = 1, 12 do
    puts(note, 'a', 0)
  end
  same(10, note.made)
  note:engine_ended()
  local made = starts(note).made
  same(11, #made)
  same({ changes = { { 0, 0, 'a' }, { 0, 0, 'a' } } }, made[11])
end)

test('how edits join is kept', function()
  local note = fake.with('tea\n')
  note:engine_ended()
  starts(note)
  note:begin_unit()
  puts(note, 'a', 0)
  puts(note, 'b', 1)
  answers(note, { version = 1, edits = 0 })
  same({ false, true }, vim.tbl_map(function(line) return line.join end, fake.sent(note)))
end)

test('an opening says how edits join', function()
  local note = fake.with('tea\n')
  note:engine_ended()
  note:begin_unit()
  puts(note, 'a', 0)
  puts(note, 'b', 1)
  same({ { changes = { { 0, 0, 'a' } }, join = false }, { changes = { { 1, 1, 'b' } }, join = true } }, starts(note).made)
end)

--- The requests of the margin that were sent.
local function said(note)
  local found = {}
  for _, line in ipairs(fake.all_sent(note)) do
    if line.once then
      table.insert(found, { line['do'], line.version, line.begin or 0, line['end'] or 0, line.once })
    end
  end
  return found
end

test('what was said is asked for again', function()
  local note = fake.with('tea and jam\n')
  review.say(note, { ['do'] = 'remark', version = 0, begin = 4, ['end'] = 7, body = 'Why?' }, 'Why?')
  review.say(note, { ['do'] = 'suggest', version = 0, begin = 8, ['end'] = 11, new = 'honey' }, 'honey')
  same({ { 'remark', 0, 4, 7, 1 }, { 'suggest', 0, 8, 11, 2 } }, said(note))
  same(false, note:engine_ended())
  review.ended(note)
  puts(note, '> ', 0)
  starts(note)
  answers(note, { version = 1, edits = 1 })
  same({ { 'remark', 1, 6, 9, 1 }, { 'suggest', 1, 10, 13, 2 } }, said(note))
  note:take({ answer = 'remark', id = note.asked - 1, thread = '7:2' })
  -- The next engine shows another text: the words are kept.
  note:engine_ended()
  starts(note)
  answers(note, { text = '> tea and jam\n!', version = 3, edits = 1 })
  same({}, said(note))
  same('honey', vim.fn.getreg('"'))
end)

test('what is not carried over is put back', function()
  for _, case in ipairs({ { nil, 'one two' }, { 1, 'two' }, { 2, nil } }) do
    local has, words = case[1], case[2]
    local note = fake.with('tea\n')
    puts(note, 'one ', 0)
    note:engine_ended()
    starts(note)
    puts(note, 'two', 4)
    fake.sent(note)
    answers(note, { text = 'theirs\n', version = 5, edits = 0, has = has })
    same('theirs\n', support.text(note))
    same({}, fake.sent(note))
    same(words, note.refused and note.refused.words)
    if words then
      assert(note.told.words:find(words, 1, true) and note.told.words:find(':VialshoalPutBack', 1, true), note.told.words)
    end
    again.put_back(note)
    same(words and { words } or {}, vim.tbl_map(function(change) return change[3] end, fake.changes(note)))
    same(nil, note.refused)
    fake.check(note)
  end
end)

test('an engine that can\'t open the note leaves the text', function()
  local note = fake.with('tea\n')
  puts(note, 'a', 0)
  note:engine_ended()
  for _ = 1, 2 do
    starts(note)
    puts(note, 'b', 0)
    answers(note, { error = 'failed', words = 'No.' })
    same(true, note.is_away)
    same('No.', note.told.words)
  end
  same(3, #starts(note).made)
  answers(note, { version = 1, edits = 3 })
  same('bbatea\n', support.text(note))
  same(true, note.is_open)
end)

test('the pause before an engine is started grows', function()
  same({ 0, 0.2, 0.4, 0.8, 1.6, 3.2, 5, 5 }, vim.tbl_map(again.pause, { 0, 1, 2, 3, 4, 5, 6, 99 }))
end)

test('undo says that the engine is away', function()
  local note = fake.with('tea\n')
  puts(note, 'a', 0)
  note:engine_ended()
  fake.sent(note)
  require('vialshoal.undo').ask(note, 'undo', 1)
  assert(note.told.words:find('engine is being started again'), note.told.words)
  same('atea\n', support.text(note))
  same({}, fake.sent(note))
end)

test('what was asked is dropped, and told', function()
  local note = fake.with('tea\n')
  note:ask({ ['do'] = 'remarks' }, function() end)
  same(false, note:engine_ended())
  starts(note)
  answers(note, { version = 0, edits = 0 })
  note:ask({ ['do'] = 'undo' }, function() error('this is no answer') end)
  same(true, note:engine_ended())
  note:take({ answer = 'undo', id = note.asked, done = true })
end)

test('a command that holds places goes on', function()
  local note = fake.with('foo foo\n')
  note.is_held = function() return true end
  puts(note, 'bar', 0)
  note:engine_ended()
  puts(note, 'baz', 3)
  starts(note)
  same(true, note:take_ahead('{"answer":"open","id":0,"version":3,"edits":2,"has":1}'))
  same(true, note.is_open)
  puts(note, '!', 6)
  same({ { { 6, 6, '!' } } }, vim.tbl_map(function(line) return line.changes end, { select(-1, unpack(fake.sent(note))) }))
  note:engine_ended()
  starts(note)
  same(false, note:take_ahead('{"answer":"open","id":0,"version":3,"edits":2,"text":"new"}'))
end)

test('a change that was broken off is not carried over', function()
  local note = fake.with('tea\n')
  note.is_lost = true
  vim.api.nvim_buf_set_lines(note.buffer, 0, -1, false, { 'rubbish', 'more' })
  note:engine_ended()
  same(nil, starts(note))
  answers(note, { text = 'new\n', version = 3, edits = 0 })
  same('new\n', support.text(note))
  same('rubbish\nmore\n', note.told.beside)
  fake.check(note)
end)

test('the hidden line end is carried over', function()
  local note = fake.with('tea\n')
  note:engine_ended()
  note:end_changed(false)
  same(wanted(0, 0, 'tea', { { { 3, 4, '' } } }), starts(note))
end)

-- Edits that the note doesn't take.

--- Has the last edit be answered with an error, behind changes that take it out.
local function refuses(note, error, ...)
  note:take({ notice = 'changes', version = note.version + 1, edits = note.made, changes = { ... } })
  note:take({ answer = 'edit', edits = note.made, error = error, words = 'Not so.' })
end

test('a refused edit keeps its words', function()
  for _, error in ipairs({ 'unkept', 'number', 'refused', 'stale', 'version', 'outside', 'failed', 'json' }) do
    local note = fake.with('one two\n')
    puts(note, '1', 4)
    refuses(note, error, { 4, 5, '' })
    assert(note.told.words:find('^Not so%..*"1".*:VialshoalPutBack'), note.told.words)
    -- What is typed at the same place follows, what is elsewhere in a line.
    puts(note, '2', 4)
    refuses(note, error, { 4, 5, '' })
    puts(note, '3', 0)
    refuses(note, error, { 0, 1, '' })
    same('12\n3', note.refused.words)
    -- Others go on.
    fake.others(note, { 0, 0, 'our ' })
    fake.sent(note)
    again.put_back(note)
    same('our one 12\n3two\n', support.text(note))
    same({ { 8, 8, '12\n3' } }, fake.sent(note)[1].changes)
    refuses(note, error, { 8, 12, '' })
    same('12\n3', note.refused.words)
    fake.check(note)
  end
end)

test('a refused deletion has no words', function()
  local note = fake.with('one two\n')
  vim.api.nvim_buf_set_text(note.buffer, 0, 0, 0, 3, {})
  note:flush_command()
  refuses(note, 'unkept', { 0, 0, 'one' })
  same('Not so.', note.told.words)
  same(nil, note.refused)
  again.put_back(note)
  assert(note.told.words:find('Nothing is kept'))
end)

test('words are put back once something can be typed', function()
  local note = fake.with('one two\n')
  puts(note, '1', 4)
  refuses(note, 'number', { 4, 5, '' })
  vim.bo[note.buffer].modifiable = false
  again.put_back(note)
  same('one two\n', support.text(note))
  vim.bo[note.buffer].modifiable = true
  again.put_back(note)
  same('one 1two\n', support.text(note))
end)

test('words are those that later changes leave', function()
  for _, case in ipairs({
    { { { 0, 0, 'abc' }, { 3, 3, 'd' }, { 1, 2, '' } }, 'acd' },
    { { { 0, 0, 'ab' }, { 5, 5, 'xy' }, { 0, 1, '' } }, 'b\nxy' },
    { { { 5, 5, 'xy' }, { 0, 0, 'ab' }, { 2, 2, 'c' } }, 'abc\nxy' },
    { { { 0, 9, 'new' } }, 'new' },
    { { { 0, 0, 'ab' }, { 0, 2, '' } }, '' },
    { { { 2, 2, 'ab' }, { 0, 8, 'all' } }, 'all' },
    { { { 0, 0, 'ab' }, { 4, 4, 'cd' }, { 1, 5, '-' } }, 'a-d' },
  }) do
    same(case[2], again.put_by(case[1]), vim.inspect(case[1]))
  end
end)
