--- Reviews with no engine: what is sent for remarks and suggestions, and what is shown of them.
local fake = require('test.fake')
local support = require('test.support')
local changed = require('vialshoal.changed')
local review = require('vialshoal.review')
local reviewing = require('vialshoal.reviewing')
local text = require('vialshoal.text')

local test, same = support.test, support.same

-- What somebody may write to be obeyed.
local HOSTILE = '50% %s %{system("x")} %#Error#\27]0;x\7\226\128\174evil\n\18=system("x")\r vim: set ts=3:'
local SHOWN = '50% %s %{system("x")} %#Error#\239\191\189]0;x\239\191\189\239\191\189evil'

local function thread(id, begin, ending, more)
  return vim.tbl_extend('force', { id = id, kind = 'remark', site = 8, name = 'Bo', time = 0, body = 'Why?', state = 'open',
    begin = begin, ['end'] = ending, text = 'tea', replies = {} }, more or {})
end

--- What was sent, without its numbers.
local function sent(note)
  return vim.tbl_map(function(line)
    line.id = nil
    return line
  end, fake.sent(note))
end

local function answer(note, line)
  note:take(vim.tbl_extend('force', { id = note.asked, edits = note.made }, line))
end

--- Has the engine say that there are threads.
local function show(note, threads)
  note:take({ notice = 'remarks', all = #threads, open = #threads })
  review.look(note)
  same({ { ['do'] = 'remarks', version = note.version } }, sent(note))
  answer(note, { answer = 'remarks', threads = threads, of = #threads })
end

--- What is shown behind the lines of a namespace.
local function behind(note, name)
  local space = vim.api.nvim_create_namespace(name or 'vialshoal_review')
  return vim.tbl_map(function(mark)
    local virtual = mark[4].virt_text
    return { mark[2], mark[3], mark[4].end_row, mark[4].end_col, mark[4].hl_group, virtual and virtual[1][1] }
  end, vim.api.nvim_buf_get_extmarks(note.buffer, space, 0, -1, { details = true }))
end

--- Gives a command.
local function give(note, what, more)
  reviewing[what](note, vim.tbl_extend('force', { args = '', bang = false, range = 0, count = 1 }, more or {}))
end

test('threads are shown where they are', function()
  local note = fake.with('tea\nmilk\n')
  show(note, {
    thread('8:1', 0, 3, { replies = { { id = '7:2', site = 7, own = true, body = 'So.' } } }),
    thread('8:3', 5, 6, { kind = 'suggestion', new = 'a\nb' }),
    thread('8:4', 6, 6),
    thread('8:5', 6, 8, { state = 'resolved' }),
    { id = '8:6', kind = 'remark', site = 8, body = 'lost', state = 'open', elsewhere = true, replies = {} },
  })
  same({
    { 0, 0, 0, 3, 'VialshoalRemark', ' Bo: Why? (1)' },
    { 1, 1, 1, 2, 'VialshoalSuggestion', ' Bo -> "a b": Why?' },
    { 1, 2, 1, 2, 'VialshoalRemark', ' Bo: Why?' },
    { 1, 2, 1, 4 },
  }, behind(note))
  -- They move with the text.
  fake.others(note, { 0, 0, '> ' })
  same(2, behind(note)[1][2])
  vim.api.nvim_win_set_cursor(0, { 1, 3 })
  same('On "tea"\nBo, 1970-01-01 00:00: Why?\n  you: So.', review.words(review.at_cursor(note)[1]))
end)

--- Where a stretch is behind a change of others: what they put at its ends isn't its own.
local function moved(begin, ending, change)
  local from, to, grown = change[1], change[2], #change[3] - (change[2] - change[1])
  local first = begin >= to and begin + grown or begin > from and from + #change[3] or begin
  local last = (ending > to or ending == to and to > from) and ending + grown or math.min(ending, from)
  return first, begin == ending and first or last
end

test('threads stay at their text as others join and break lines', function()
  math.randomseed(7)
  local random = math.random
  for _ = 1, 200 do
    local words = ('one two\nthree\n\nfour five six\nseven\n'):rep(2)
    local note = fake.with(words)
    local threads, places = {}, {}
    for number = 1, 6 do
      local begin = random(0, #words - 2)
      local ending = random(begin + 1, math.min(#words - 1, begin + 9))
      threads[number], places[tostring(number)] = thread(tostring(number), begin, ending), { begin, ending }
    end
    show(note, threads)
    local size = #words
    for _ = 1, 3 do
      local from = random(0, size - 2)
      local change = random() < 0.5 and { from, from, ({ 'x', 'x\n', '\ny', '\n' })[random(4)] }
        or { from, random(from + 1, math.min(size - 1, from + 12)), '' }
      fake.others(note, change)
      size = size + #change[3] - (change[2] - change[1])
      for id, place in pairs(places) do
        local begin, ending = moved(place[1], place[2], change)
        -- What all of it has gone with is shown anew.
        places[id] = begin < ending and { begin, ending } or nil
      end
    end
    for _, each in ipairs(review.shown(note)) do
      local place = places[each.thread.id]
      if place then
        same(place, { text.offset(note.lines, each.first[1]) + each.first[2], text.offset(note.lines, each.last[1]) + each.last[2] },
          vim.inspect({ each.thread, support.text(note) }))
      end
    end
    fake.check(note)
  end
end)

test('it is asked for what is current', function()
  local note = fake.with('tea')
  note.now = 100
  note:take({ notice = 'remarks', all = 1, open = 1 })
  vim.api.nvim_buf_set_text(note.buffer, 0, 3, 0, 3, { 'x' })
  note:flush()
  fake.sent(note)
  -- While an edit isn't answered, nothing is asked.
  review.look(note)
  same({}, sent(note))
  note:take({ answer = 'edit', edits = 1 })
  review.look(note)
  same({ { ['do'] = 'remarks', version = 0 } }, sent(note))
  -- What was typed since isn't in the places of the answer.
  vim.api.nvim_buf_set_text(note.buffer, 0, 4, 0, 4, { 'y' })
  note:take({ id = 1, answer = 'remarks', edits = 1, of = 1, threads = { thread('8:1', 0, 3) } })
  same({}, behind(note))
  fake.sent(note)
  note:take({ answer = 'edit', edits = 2 })
  review.look(note)
  same({ { ['do'] = 'remarks', version = 0 } }, sent(note))
  answer(note, { answer = 'remarks', of = 1, threads = { thread('8:1', 0, 3) } })
  same(1, #behind(note))
  -- Nothing more is to be asked.
  review.look(note)
  same({}, sent(note))
end)

test('it is asked some times a second', function()
  local note, delays = fake.with('tea'), {}
  support.with(vim, 'defer_fn', function(_, delay) table.insert(delays, delay) end, function()
    note.now = 100
    for _ = 1, 3 do
      note:take({ notice = 'remarks', all = 0, open = 0 })
    end
    note.review.waits = false
    review.look(note)
    note:take({ notice = 'remarks', all = 0, open = 0 })
  end)
  same({ 0, 300 }, delays)
end)

test('of many threads those that are open are shown', function()
  local note = fake.with('tea')
  note:take({ notice = 'remarks', all = 2, open = 1 })
  review.look(note)
  fake.sent(note)
  answer(note, { answer = 'remarks', of = 2, threads = { thread('8:1', 0, 1) } })
  same({ { ['do'] = 'remarks', version = 0, open = true } }, sent(note))
  answer(note, { answer = 'remarks', of = 2, threads = { thread('8:2', 1, 2) } })
  same(1, #behind(note))
end)

test('a remark is about the selection, the lines or the cursor', function()
  local note = fake.with('téa\nmilk\n')
  vim.api.nvim_win_set_cursor(0, { 2, 1 })
  give(note, 'remark', { args = 'Why?' })
  give(note, 'remark', { args = 'Why?', range = 2, line1 = 1, line2 = 2 })
  vim.cmd('normal! 1G0lvjl\27')
  give(note, 'remark', { args = 'Why?', range = 2, line1 = 1, line2 = 2 })
  vim.cmd('normal! 1G0vl\27')
  give(note, 'remark', { args = 'Why?', range = 2, line1 = 1, line2 = 1 })
  vim.cmd('normal! 1GVj\27')
  give(note, 'remark', { args = 'Why?', range = 2, line1 = 1, line2 = 2 })
  give(note, 'remark', { args = 'a\255', range = 2, line1 = 1, line2 = 1 })
  same('a\239\191\189', table.remove(note.sent).body)
  give(note, 'remark', { args = ' ' })
  same('Nothing was written.', note.told.words)
  same({ { 6, 6 }, { 0, 9 }, { 1, 8 }, { 0, 3 }, { 0, 9 } }, vim.tbl_map(function(line)
    same({ 'remark', 'Why?', 0 }, { line['do'], line.body, line.version })
    return { line.begin, line['end'] }
  end, sent(note)))
end)

test('what is asked for is where it was, as others write', function()
  local note = fake.with('tea\n')
  vim.cmd('normal! 1G0lvl\27')
  support.with(vim.ui, 'input', function(options, call)
    same('Remark: ', options.prompt)
    fake.others(note, { 0, 0, '> ' })
    call('Why?')
  end, function() give(note, 'remark', { range = 2, line1 = 1, line2 = 1 }) end)
  same({ { ['do'] = 'remark', body = 'Why?', version = 1, begin = 3, ['end'] = 5 } }, sent(note))
end)

test('much is written in a buffer', function()
  local note = fake.with('tea\n')
  give(note, 'remark', { bang = true, range = 2, line1 = 1, line2 = 1 })
  same({ 'acwrite', false }, { vim.bo.buftype, vim.bo.modeline })
  vim.api.nvim_buf_set_lines(0, 0, -1, false, { 'one', 'two' })
  vim.cmd('write')
  same({ { ['do'] = 'remark', body = 'one\ntwo', version = 0, begin = 0, ['end'] = 3 } }, sent(note))
  support.wait(function() return vim.api.nvim_get_current_buf() == note.buffer end, 'the buffer to go')
end)

test('what is done to threads', function()
  local note = fake.with('tea\nmilk\n')
  show(note, {
    thread('8:1', 0, 1, { replies = { { id = '7:2', site = 7, own = true, body = 'So.' } } }),
    thread('7:3', 5, 6, { kind = 'suggestion', new = 'he', own = true }),
  })
  for _, case in ipairs({
    { 1, 'reply', { ['do'] = 'reply', to = '8:1', body = '!' } }, { 1, 'revise', { ['do'] = 'revise', to = '7:2', body = 'So.!' } },
    { 1, 'resolve', { ['do'] = 'resolve', to = '8:1' } }, { 2, 'resolve', { ['do'] = 'resolve', to = '7:3' } },
    { 2, 'reject', { ['do'] = 'reject', to = '7:3' } }, { 2, 'accept', { ['do'] = 'accept', to = '7:3' } },
    { 1, 'withdraw', { ['do'] = 'withdraw', to = '7:2' } }, { 2, 'withdraw', { ['do'] = 'withdraw', to = '7:3' } },
  }) do
    vim.api.nvim_win_set_cursor(0, { case[1], 0 })
    support.with(vim.ui, 'input', function(options, call) call(options.default .. '!') end, function() give(note, case[2]) end)
    same({ case[3] }, sent(note), case[2])
  end
  vim.api.nvim_win_set_cursor(0, { 1, 0 })
  give(note, 'accept')
  same('No open suggestion is here.', note.told.words)
  give(note, 'reopen')
  same('No remark is here that could be opened again.', note.told.words)
  same({}, sent(note))
  show(note, { thread('8:1', 0, 1, { state = 'resolved' }) })
  give(note, 'reopen')
  same({ { ['do'] = 'reopen', to = '8:1' } }, sent(note))
end)

test('of several threads one is chosen', function()
  local note = fake.with('tea')
  show(note, { thread('8:1', 0, 3), thread('8:2', 0, 3, { body = 'What?' }) })
  support.with(vim.ui, 'select', function(records, options, call)
    same({ 'Bo: Why?', 'Bo: What?' }, vim.tbl_map(options.format_item, records))
    call(records[2])
  end, function() give(note, 'resolve') end)
  same({ { ['do'] = 'resolve', to = '8:2' } }, sent(note))
end)

test('a text is suggested', function()
  local note = fake.with('Ākd\nmilk\n')
  give(note, 'suggest', { args = 'jam', range = 2, line1 = 1, line2 = 1 })
  same({ { ['do'] = 'suggest', new = 'jam', version = 0, begin = 0, ['end'] = 4 } }, sent(note))
  support.with(vim.ui, 'input', function(options, call)
    same('Ākd', options.default)
    call('')
  end, function() give(note, 'suggest', { range = 2, line1 = 1, line2 = 1 }) end)
  same({ { ['do'] = 'suggest', new = '', version = 0, begin = 0, ['end'] = 4 } }, sent(note))
  give(note, 'suggest', { args = 'milk', range = 2, line1 = 2, line2 = 2 })
  same('This is what is there.', note.told.words)
  give(note, 'suggest', { range = 2, line1 = 1, line2 = 2 })
  same({ 'Ākd', 'milk' }, vim.api.nvim_buf_get_lines(0, 0, -1, false))
  vim.cmd('normal! 1Gdd')
  vim.cmd('write')
  same({ { ['do'] = 'suggest', new = 'milk', version = 0, begin = 0, ['end'] = 9 } }, sent(note))
  support.wait(function() return vim.api.nvim_get_current_buf() == note.buffer end, 'the buffer to go')
end)

test('a text that is suggested is no keys', function()
  local note = fake.with('a\18=system("x")\27b')
  give(note, 'suggest', { range = 2, line1 = 1, line2 = 1 })
  same({ 'acwrite', 'a\18=system("x")\27b' }, { vim.bo.buftype, vim.api.nvim_get_current_line() })
  vim.cmd('bwipeout!')
end)

test('what changed is accepted by a command, and by nothing that is typed', function()
  local note = fake.with('tea')
  show(note, { thread('8:1', 0, 3, { kind = 'suggestion', new = 'jam' }) })
  give(note, 'accept', { bang = true })
  same('First :VialshoalAccept, which shows what has changed.', note.told.words)
  give(note, 'accept')
  fake.sent(note)
  local window = vim.api.nvim_get_current_win()
  answer(note, { answer = 'accept', error = 'changed', words = 'It has changed.', was = 'tea', now = 'te\27a', new = 'jam',
    becomes = 'jam1' })
  support.wait(function() return note.shown_changed end, 'what has changed')
  same('It has changed.', note.told.words)
  -- The user goes on where he is.
  same({ window, note.buffer }, { vim.api.nvim_get_current_win(), vim.api.nvim_get_current_buf() })
  local shown = note.shown_changed.window
  same({ 'It was:', 'tea', '', 'It is now:', 'te\239\191\189a', '', 'It would be:', 'jam1', '', ':VialshoalAccept! accepts this' },
    vim.api.nvim_buf_get_lines(vim.api.nvim_win_get_buf(shown), 0, -1, false))
  same({}, sent(note))
  give(note, 'accept', { bang = true })
  same(false, vim.api.nvim_win_is_valid(shown))
  same({ { ['do'] = 'accept', to = '8:1', becomes = 'jam1' } }, sent(note))
end)

test('one goes from remark to remark', function()
  local note = fake.with('tea\nmilk\nrice\n')
  show(note, { thread('8:1', 1, 2), thread('8:2', 4, 5, { state = 'resolved' }), thread('8:3', 9, 10) })
  vim.api.nvim_win_set_cursor(0, { 1, 0 })
  local shown = {}
  support.with(vim.api, 'nvim_echo', function(chunks) table.insert(shown, chunks[1][1]) end, function()
    give(note, 'next')
    same({ 1, 1 }, vim.api.nvim_win_get_cursor(0))
    give(note, 'next')
    same({ 3, 0 }, vim.api.nvim_win_get_cursor(0))
    give(note, 'next')
    same({ 1, 1 }, vim.api.nvim_win_get_cursor(0))
    give(note, 'previous')
    same({ 3, 0 }, vim.api.nvim_win_get_cursor(0))
    give(note, 'previous', { count = 4 })
    same({ 3, 0 }, vim.api.nvim_win_get_cursor(0))
  end)
  same(5, #shown)
  same('Bo: Why?', shown[1])
  show(note, {})
  give(note, 'next')
  same('There are no open remarks.', note.told.words)
end)

test('nothing that others write is obeyed', function()
  same(SHOWN .. '\n\239\191\189=system("x")\239\191\189 vim: set ts=3:', text.words(HOSTILE))
  same('ab..', text.line('abc', 2))
  same('漢..', text.line('漢字', 3))
  same('', text.line(nil, 9))
  same({ 'a b', 'c', 'def', 'gh', '漢', '漢', 'x' }, text.lines('\na b c\ndefgh 漢漢\tx\n', 3))
  local note = fake.with('tea\n')
  local hostile = thread('8:1', 0, 3, { kind = 'suggestion', name = HOSTILE, text = HOSTILE, new = HOSTILE, body = HOSTILE,
    time = 2 ^ 53, replies = { { id = '8:2', site = 8, name = HOSTILE, body = HOSTILE } } })
  show(note, { hostile })
  assert(not behind(note)[1][6]:find('[%c]'))
  give(note, 'list')
  answer(note, { answer = 'remarks', of = 1, threads = { hostile } })
  assert(not vim.api.nvim_get_current_line():find('%c'))
  fake.sent(note)
  vim.cmd('cclose')
  give(note, 'read')
  local words = table.concat(vim.api.nvim_buf_get_lines(0, 0, -1, false), '\n')
  assert(words:find(SHOWN, 1, true) and not words:find('[%z\1-\9\11-\31]'), words)
  same({ 8, false }, { vim.bo.tabstop, vim.bo.modeline })
  vim.cmd('close')
  show(note, { thread('8:1', 0, 3, { body = ('漢'):rep(100000) }) })
end)

test('the list has what is open, or all', function()
  local note = fake.with('tea\nmilk\n')
  local threads = { thread('8:1', 0, 1), thread('8:2', 5, 6, { state = 'resolved' }),
    { id = '8:3', kind = 'remark', site = 9, body = 'lost', state = 'open', elsewhere = true } }
  for _, bang in ipairs({ false, true }) do
    give(note, 'list', { bang = bang })
    same({ { ['do'] = 'remarks', from = 0, version = 0 } }, sent(note))
    -- A line of the engine's has only so many of them.
    answer(note, { answer = 'remarks', of = 3, threads = vim.list_slice(threads, 1, 2) })
    same({ { ['do'] = 'remarks', from = 2, version = 0 } }, sent(note))
    answer(note, { answer = 'remarks', of = 3, threads = vim.list_slice(threads, 3) })
    local items = vim.tbl_map(function(item)
      return { item.lnum, item.col, item.valid, item.text }
    end, vim.fn.getqflist())
    local wanted = { { 1, 1, 1, 'Bo: Why?' }, { 0, 0, 0, 'site 9: lost' } }
    if bang then
      table.insert(wanted, 2, { 2, 2, 1, '(resolved) Bo: Why?' })
    end
    same(wanted, items)
    vim.cmd('cclose')
  end
end)

test('the list has what one author began', function()
  local note = fake.with('tea\nmilk\n')
  for author, wanted in pairs({ Bo = { 'Bo: Why?' }, ['site 9'] = { 'site 9: lost' }, you = { 'you: Mine' }, Cy = {} }) do
    give(note, 'list', { args = author })
    sent(note)
    answer(note, { answer = 'remarks', of = 4, threads = { thread('8:1', 0, 1), thread('8:2', 5, 6, { state = 'resolved' }),
      { id = '9:3', kind = 'remark', site = 9, body = 'lost', state = 'open', elsewhere = true },
      thread('7:1', 5, 6, { own = true, body = 'Mine' }) } })
    same(wanted, vim.tbl_map(function(item) return item.text end, vim.fn.getqflist()))
    vim.cmd('cclose')
  end
end)

test('what is done in the list is about the thread of its line', function()
  local note = fake.with('tea\nmilk\n')
  local threads = { thread('8:1', 0, 1), { id = '8:3', kind = 'remark', site = 9, body = 'lost', state = 'open', elsewhere = true,
    replies = { { id = '7:2', site = 7, own = true, body = 'So.' } } } }
  require('vialshoal').notes()[note.buffer] = note
  local function gives(what, more)
    require('vialshoal').review(what, vim.tbl_extend('force', { args = '', bang = false, range = 0, count = 1 }, more or {}))
  end
  gives('list')
  fake.sent(note)
  answer(note, { answer = 'remarks', of = 2, threads = threads })
  same('quickfix', vim.bo.buftype)
  vim.api.nvim_win_set_cursor(0, { 2, 0 })
  for _, case in ipairs({
    { 'reply', { ['do'] = 'reply', to = '8:3', body = '!' } }, { 'resolve', { ['do'] = 'resolve', to = '8:3' } },
    { 'revise', { ['do'] = 'revise', to = '7:2', body = '!' } }, { 'withdraw', { ['do'] = 'withdraw', to = '7:2' } },
  }) do
    gives(case[1], { args = '!' })
    same({ case[2] }, sent(note), case[1])
  end
  gives('read')
  assert(vim.api.nvim_buf_get_lines(0, 0, -1, false)[1]:find("its text isn't here", 1, true))
  vim.cmd('close')
  -- A remark on the window's own text isn't meant.
  vim.cmd('copen')
  gives('remark', { args = 'Why?' })
  same({}, sent(note))
  -- As it becomes another one, the list does; the cursor stays with its thread.
  vim.api.nvim_win_set_cursor(0, { 2, 0 })
  threads[1].state = 'resolved'
  note:take({ notice = 'remarks', all = 2, open = 1 })
  review.look(note)
  answer(note, { answer = 'remarks', of = 2, threads = threads })
  answer(note, { answer = 'remarks', of = 2, threads = threads })
  same({ 'site 9: lost (1)' }, vim.tbl_map(function(item) return item.text end, vim.fn.getqflist()))
  same(1, vim.api.nvim_win_get_cursor(0)[1])
  -- Another list of errors is left alone.
  vim.fn.setqflist({}, ' ', { title = 'others', items = {} })
  fake.sent(note)
  note:take({ notice = 'remarks', all = 2, open = 1 })
  review.look(note)
  answer(note, { answer = 'remarks', of = 2, threads = threads })
  same(1, #fake.sent(note))
  require('vialshoal').notes()[note.buffer] = nil
  vim.cmd('cclose')
end)

test('what is about text that is gone is where that was', function()
  local note = fake.with('tea\nmilk\n')
  show(note, { thread('8:1', 4, 4, { gone = true }) })
  vim.api.nvim_win_set_cursor(0, { 2, 3 })
  for _, what in ipairs({ 'resolve', 'reply' }) do
    give(note, what, { args = 'So.' })
    same({ what, '8:1' }, { note.sent[1]['do'], fake.sent(note)[1].to })
  end
end)

test('what is refused is kept', function()
  local note = fake.with('tea')
  give(note, 'remark', { args = 'Why?' })
  answer(note, { answer = 'remark', error = 'margin', words = 'This note has no margin: 50%s.' })
  same('This note has no margin: 50%s. What you wrote is in the unnamed register.', note.told.words)
  same('Why?', vim.fn.getreg('"'))
  give(note, 'remark', { args = 'And this?' })
  answer(note, { answer = 'remark', thread = '7:1' })
  -- An engine that ends doesn't answer any more.
  give(note, 'remark', { args = 'One' })
  give(note, 'suggest', { args = 'Two' })
  review.ended(note)
  same('One\n\nTwo', vim.fn.getreg('"'))
  note.is_open = false
  give(note, 'remark', { args = 'Three' })
  same('Three', vim.fn.getreg('"'))
end)

test('what changed is shown', function()
  local note = fake.with('tea\nmilk\n')
  give(note, 'changed')
  same({ { ['do'] = 'changed', version = 0, since = 'looked' } }, sent(note))
  answer(note, { answer = 'changed', since = 0,
    came = { { begin = 4, ['end'] = 6, site = 8, name = 'Bo', by = { site = 8, name = 'Bo' } } },
    went = { { at = 1, text = 'x\27y', site = 9, by = { site = 8, name = 'Bo' } } } })
  same({ { 0, 1, nil, nil, nil, ' x\239\191\189y' }, { 1, 0, 1, 2, 'VialshoalCame' } }, behind(note, 'vialshoal_changed'))
  same({ 'Went, of site 9, by Bo: x\239\191\189y', 'Came, of Bo' }, vim.tbl_map(function(item) return item.text end, vim.fn.getqflist()))
  assert(note.told.words:find('2 changed', 1, true))
  give(note, 'changed', { bang = true })
  same({}, behind(note, 'vialshoal_changed'))
  support.with(os, 'time', function() return 10000 end, function() give(note, 'changed', { args = '2' }) end)
  same({ { ['do'] = 'changed', version = 0, since = { time = 2800 } } }, sent(note))
  -- What was typed since isn't in the places of the answer.
  vim.api.nvim_buf_set_text(note.buffer, 0, 0, 0, 0, { 'y' })
  answer(note, { answer = 'changed', since = 0, came = { { begin = 4, ['end'] = 6, site = 8 } }, went = {} })
  same({}, behind(note, 'vialshoal_changed'))
  changed.clear(note)
end)
