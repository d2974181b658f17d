--- What is done with no engine: what is sent of all that changes, and what others' text and names do.
local fake = require('test.fake')
local support = require('test.support')
local text = require('vialshoal.text')
local vialshoal = require('vialshoal')

local test, same = support.test, support.same

--- What a text becomes by changes.
local function replayed(words, changes)
  for _, change in ipairs(changes) do
    words = words:sub(1, change[1]) .. change[3] .. words:sub(change[2] + 1)
  end
  return words
end

test('names are cut and have no controls', function()
  same('A[31mda', text.name('A\27[31m\226\128\174da\n\194\133'))
  same(40, vim.fn.strchars(text.name(('漢'):rep(99))))
  same('', text.name(nil))
  same('', text.name({}))
end)

test('what is no character shows as U+FFFD', function()
  same('aé漢🎉', text.clean('aé漢🎉'))
  local bad = '\239\191\189'
  same('a' .. bad .. 'b', text.clean('a\255b'))
  same(bad .. bad .. bad, text.clean('\237\160\128'))
  same(bad, text.clean('\195'))
  same(bad .. bad .. 'x', text.clean('\192\128x'))
  same(bad .. bad .. bad .. bad, text.clean('\244\144\128\128'))
  same('é' .. bad, text.clean('é\169'))
end)

test('a status line shows what others wrote as it is', function()
  local note = fake.with('tea')
  note.job, note.state = 1, { log = 'away', unsent = 12, on = 3, types = true, trouble = '%{system("x")} %#Error#' }
  vialshoal.note = function() return note end
  local words = vialshoal.statusline()
  package.loaded['vialshoal'] = nil
  vialshoal = require('vialshoal')
  same('Note:offline, 12 kept, 3 on, trouble: %%{system("x")} %%#Error#', words)
  same('Note:offline, 12 kept, 3 on, trouble: %{system("x")} %#Error#', vim.api.nvim_eval_statusline(words, {}).str)
end)

test('the history has what was left out', function()
  local note = fake.with('tea')
  require('vialshoal.history').open(note)
  note:take({ answer = 'history', id = note.asked, length = 1, steps = {
    { begin = 0, ['end'] = 1, site = 7, own = false, typed = 3, deleted = 0 },
  }, left_out = {
    { site = 8, own = false, name = 'Bo', characters = 5, messages = 1, text = 'lost' },
    { site = 9, own = true, characters = 3, messages = 1, text = 'hé\n' },
  } })
  local function past()
    note:take({ answer = 'past', id = note.asked, at = 1, text = 'tea', stretches = {} })
  end
  local function lines()
    return vim.api.nvim_buf_get_lines(0, 0, -1, false)
  end
  past()
  same({ 'tea' }, lines())
  for _ = 1, 2 do
    vim.api.nvim_feedkeys('n', 'xt', false)
    same({ 'lost', 'hé', '' }, lines())
  end
  local space = vim.api.nvim_create_namespace('vialshoal_history')
  local marks = vim.api.nvim_buf_get_extmarks(0, space, 0, -1, { details = true })
  same({ { 0, 0, 0, 4 }, { 1, 0, 2, 0 } }, vim.tbl_map(function(mark)
    return { mark[2], mark[3], mark[4].end_row, mark[4].end_col }
  end, marks))
  -- An answer that comes when another step is shown is late.
  vim.api.nvim_feedkeys('pn', 'xt', false)
  past()
  same({ 'lost', 'hé', '' }, lines())
  vim.api.nvim_feedkeys('p', 'xt', false)
  past()
  same({ 'tea' }, lines())
  vim.cmd('bwipeout!')
end)

test('a status line says what is left out', function()
  local note = fake.with('tea')
  note.job = 1
  note.state = { log = 'sent', unsent = 0, on = 1, types = true, renewed = { site = 8, own = false }, unproved = true, left_out = {
    { site = 7, own = false, name = 'A%da\27', characters = 14, messages = 1 },
    { site = 9, own = true, characters = 3, messages = 2 },
    { site = 4, own = false, characters = 2, messages = 2 },
    { site = 5, own = false, characters = 1, messages = 1 },
  } }
  vialshoal.note = function() return note end
  local words = vialshoal.statusline()
  package.loaded['vialshoal'] = nil
  vialshoal = require('vialshoal')
  same('Note:sent, left out: 14 of A%%da, 3 of you, 2 of site 4, .., renewed by site 8, not proved', words)
end)

test('bytes that are of no character are replaced where they are typed', function()
  local note = fake.with('ab\ncd')
  vim.api.nvim_buf_set_text(note.buffer, 0, 1, 0, 1, { 'x\255y', 'z' })
  vim.api.nvim_buf_set_text(note.buffer, 0, 0, 0, 0, { '> ' })
  same('> ax\239\191\189y\nzb\ncd', replayed('ab\ncd', fake.changes(note)))
  same('> ax\239\191\189y\nzb\ncd', support.text(note))
  fake.check(note)
end)

test('a cursor on a character goes with it', function()
  for keys, expected in pairs({
    dd = 'tea\njam\nrice', dw = 'tea\njam\ntea\nrice', x = 'tea\njam\nilk tea\nrice', D = 'tea\njam\n\nrice',
    ['vjd'] = 'tea\njam\nice', ['Vd'] = 'tea\njam\nrice',
  }) do
    local note = fake.with('tea\nmilk tea\nrice')
    vim.cmd('normal! 2G0')
    fake.others(note, { 4, 4, 'jam\n' })
    support.same({ 3, 0 }, vim.api.nvim_win_get_cursor(0))
    vim.cmd('normal! ' .. keys)
    support.same(expected, support.text(note))
  end
  local note = fake.with('tea\n\nrice')
  vim.cmd('normal! gg02l')
  fake.others(note, { 2, 2, 'ns, te' })
  support.same({ 1, 8 }, vim.api.nvim_win_get_cursor(0))
  -- An empty line has no character: what comes into it comes behind the cursor.
  vim.cmd('normal! 2G')
  fake.others(note, { 10, 10, 'jam' })
  support.same({ 2, 0 }, vim.api.nvim_win_get_cursor(0))
  fake.others(note, { 10, 10, 'oat\n' })
  support.same({ 3, 0 }, vim.api.nvim_win_get_cursor(0))
end)

test('NUL is a character as any other', function()
  local note = fake.with('a\0b\n')
  same('a\0b\n', support.text(note))
  vim.api.nvim_buf_set_lines(note.buffer, 0, 0, false, { '\0' })
  same({ { 0, 0, '\0\n' } }, fake.changes(note))
end)

test('a key goes where it was typed', function()
  local note = fake.with('aaaa')
  vim.cmd('normal! 02lia')
  same({ { 2, 2, 'a' } }, fake.changes(note))
  vim.cmd('normal! 0x')
  same({ { 0, 1, '' } }, fake.changes(note))
  fake.check(note)
end)

test('what is typed in a block goes where it was typed', function()
  local note = fake.with('aab\naac\naad')
  vim.cmd('normal! 1G0\22jjIaa\27')
  same({ { 0, 0, 'aa' }, { 6, 6, 'aa' }, { 12, 12, 'aa' } }, fake.changes(note))
  fake.check(note)
  vim.cmd('%s/aa\\ze[cd]/a,a')
  same({ { 9, 9, ',' }, { 16, 16, ',' } }, fake.changes(note))
  -- What is put before what begins alike.
  vim.cmd('%s/^/aaa')
  same({ { 0, 0, 'aaa' }, { 9, 9, 'aaa' }, { 19, 19, 'aaa' } }, fake.changes(note))
  fake.check(note)
end)

test('a key goes where it was typed, though Vim tells late where a line end came', function()
  local note = fake.with('b\nn1\nn2\n')
  vim.cmd('normal! 1G0ix\13')
  note:flush_command()
  fake.changes(note)
  vim.cmd('normal! 4G0in')
  same({ { 7, 7, 'n' } }, fake.changes(note))
  vim.cmd('normal! 2GA\13')
  note:flush_command()
  same({ { 3, 3, '\n' } }, fake.changes(note))
  same({ { 2, 2, 'x' } }, text.change('abc', 'abxc', 0, 1))
  same({ { 1, 1, 'b' } }, text.change('abc', 'abbc', 0, 1))
end)

test('filling keeps the words', function()
  local note = fake.with('one two\nthree  four\nfive six seven\n')
  vim.bo[note.buffer].textwidth = 10
  vim.cmd('normal! gggqap')
  same('one two\nthree\nfour five\nsix seven\n', support.text(note))
  local changes = fake.changes(note)
  same(support.text(note), replayed('one two\nthree  four\nfive six seven\n', changes))
  for _, change in ipairs(changes) do
    same(true, change[2] - change[1] <= 2 and change[3]:find('%S') == nil, vim.inspect(change))
  end
  fake.check(note)
end)

test('what is replaced all over a line leaves the words between', function()
  local note = fake.with('so the cat and the dog and the cow\n')
  vim.cmd('s/the/THE/g')
  same({ { 3, 6, 'THE' }, { 15, 18, 'THE' }, { 27, 30, 'THE' } }, fake.changes(note))
  vim.cmd('s/THE c/a  c/g')
  same({ { 3, 6, 'a' }, { 4, 5, '  ' }, { 26, 29, 'a' }, { 27, 27, ' ' } }, fake.changes(note))
  vim.cmd('s/dog.*/one two/')
  same({ { 18, 32, 'one two' } }, fake.changes(note))
  fake.check(note)
  note = fake.with('the cat the\n')
  vim.cmd('s/the/THE/g')
  same({ { 0, 3, 'THE' }, { 8, 11, 'THE' } }, fake.changes(note))
end)

test('much is sent in parts that are undone together', function()
  local note, words = fake.with('ab'), ('é'):rep(1000000) .. 'z'
  vim.api.nvim_buf_set_text(note.buffer, 0, 1, 0, 1, { words })
  note:flush()
  local sent, changes = fake.sent(note), {}
  for number, line in ipairs(sent) do
    same(number, line.edits)
    same(number > 1 or nil, line.join)
    vim.list_extend(changes, line.changes)
  end
  same(3, #sent)
  assert('a' .. words .. 'b' == replayed('ab', changes), 'the text is another one')
end)

test('many changes are sent in parts', function()
  local note = fake.with('')
  for _ = 1, 120000 do
    note:add({ 0, 0, '' })
  end
  note:send_changes()
  same({ 50000, 50000, 20000 }, vim.tbl_map(function(line) return #line.changes end, fake.sent(note)))
end)

test('all that changes at random is sent', function()
  math.randomseed(56)
  local random = math.random
  local pieces = { 'aa', '🍰', 'é', '\t ', 'x', '', '漢字', 'a', '\r' }
  local function line()
    return pieces[random(#pieces)] .. pieces[random(#pieces)]
  end
  local commands = { 's/a/bb/', '%s/a/b\\r/', 'sort', 'g/x/d', 'move 0', 'copy $', '1,2join' }
  for _, keys in ipairs({ 'x', 'dd', 'p', 'J', 'yyP', '>>', 'D', 'o', 'O', 'ia', 'A!', '~', 'dw', 'ggdG', 'yG', 'xp', 'gUU',
    'r\13', 'ddP', 'dk', 'cc', 'yyGp', 'i\13', 'gJ', '\22jd', '3ia', 'i🍰' }) do
    table.insert(commands, 'normal! ' .. keys)
  end
  local wanted = 'one 🍰\ntwo\n\nthree\n'
  local note = fake.with(wanted)
  for turn = 1, 1500 do
    local row = random(vim.fn.line('$'))
    vim.api.nvim_win_set_cursor(0, { row, random(0, 3) })
    if random() < 0.2 then
      local from = random(0, vim.fn.line('$'))
      vim.api.nvim_buf_set_lines(note.buffer, from, math.min(from + random(0, 2), vim.fn.line('$')), false,
        random() < 0.7 and { line(), line() } or {})
    elseif random() < 0.2 then
      -- Others' change, at the beginnings of lines.
      wanted = replayed(wanted, fake.changes(note))
      local from = text.offset(note.lines, random(0, #note.lines - 1))
      local size = note:size() + (note.has_end and 1 or 0)
      local to = random() < 0.5 and from or random() < 0.3 and size or text.offset(note.lines, random(0, #note.lines - 1))
      from, to = math.min(from, to), math.max(from, to)
      local change = { from, to, random() < 0.7 and line() .. '\n' or line() }
      local another = { 0, 0, random() < 0.1 and '\n' or line() }
      fake.others(note, change, another)
      wanted = replayed(wanted, { change, another })
    else
      vim.cmd('silent! ' .. commands[random(#commands)])
    end
    if random() < 0.5 then
      wanted = replayed(wanted, fake.changes(note))
      fake.check(note)
      same(wanted, support.text(note), 'text after turn ' .. turn)
    end
  end
end)

test('cursors stay on their characters', function()
  local note = fake.with('one two three\nfour')
  vim.api.nvim_win_set_cursor(0, { 1, 4 })
  fake.others(note, { 0, 0, '>>\n' }, { 3, 6, '1' })
  same({ 2, 2 }, vim.api.nvim_win_get_cursor(0))
  fake.others(note, { 5, 5, 'X' })
  same({ 2, 3 }, vim.api.nvim_win_get_cursor(0))
  fake.others(note, { 4, 9, 'new' })
  same({ 2, 1 }, vim.api.nvim_win_get_cursor(0))
end)

test('what a window shows stays where it is', function()
  local words = ('line\n'):rep(200)
  local note = fake.with(words)
  vim.api.nvim_win_set_cursor(0, { 100, 2 })
  vim.cmd('normal! zt')
  vim.cmd('redraw')
  same(100, vim.fn.line('w0'))
  fake.others(note, { 0, 0, 'a\nb\nc\n' })
  same({ 103, 103 }, { vim.fn.line('.'), vim.fn.line('w0') })
end)

test('text that gives way is kept beside', function()
  local note = fake.with('tea\n')
  vim.api.nvim_buf_set_text(note.buffer, 0, 0, 0, 0, { 'own ' })
  note:flush()
  note:take({ notice = 'text', version = 3, edits = 1, text = 'theirs' })
  same('theirs', support.text(note))
  same('own tea\n', note.told.beside)
  fake.check(note)
end)

test('a change that is broken off has the text asked for', function()
  local note = fake.with('tea\n')
  note:lost()
  vim.api.nvim_buf_set_lines(note.buffer, 0, -1, false, { 'rubbish' })
  fake.others(note, { 0, 0, 'x' })
  support.wait(function() return #note.sent > 0 end)
  same({ { ['do'] = 'text', edits = 0 } }, fake.sent(note))
  note:take({ notice = 'text', version = 9, edits = 0, text = 'xtea\n' })
  same('xtea\n', support.text(note))
  same('rubbish\n', note.told.beside)
  vim.cmd('normal! A!')
  same({ { 4, 4, '!' } }, fake.changes(note))
end)

test('what was typed before a change is broken off is kept beside', function()
  local note = fake.with('tea\n')
  vim.cmd('normal! Iown \27')
  note:lost()
  note:take({ notice = 'text', version = 9, edits = 0, text = 'theirs\n' })
  same('theirs\n', support.text(note))
  same('own tea\n', note.told.beside)
  same({}, fake.changes(note))
  fake.check(note)
end)

--- Calls a function while CTRL-C is pending, which it has to be behind that, too.
local function amid_interrupt(call)
  vim.api.nvim_input('<C-c>')
  local is_done, why = pcall(call)
  local is_free = pcall(vim.fn.mode)
  vim.fn.getchar()
  assert(is_done, why)
  assert(not is_free, 'CTRL-C was lost')
end

test('CTRL-C breaks off no change of others', function()
  local note = fake.with('tea\n')
  amid_interrupt(function() fake.others(note, { 0, 0, 'x' }, { 4, 4, 'y\nz' }) end)
  same('xteay\nz\n', support.text(note))
  fake.check(note)
end)

test('CTRL-C breaks off no change of the user\'s', function()
  local note = fake.with('tea\n')
  vim.api.nvim_buf_set_text(note.buffer, 0, 3, 0, 3, { '\255' })
  amid_interrupt(function() note:flush() end)
  same({ { 3, 3, '\239\191\189' } }, fake.changes(note))
  fake.check(note)
end)

test('a note opens in spite of CTRL-C', function()
  local note = fake.with('')
  note.is_open = false
  note.waiting[0] = function(answer) note:opened(answer) end
  amid_interrupt(function() note:take({ answer = 'open', id = 0, text = 'tea\n', version = 3, edits = 0 }) end)
  same('tea\n', support.text(note))
  fake.check(note)
end)

test('who only reads says what was seen', function()
  local note = fake.with('')
  for _ = 1, 250 do
    fake.others(note, { 0, 0, 'x' })
  end
  same({ { ['do'] = 'seen', version = 100 }, { ['do'] = 'seen', version = 200 } }, fake.sent(note))
end)

test('undo of Vim\'s own does nothing', function()
  local note = fake.with('one\n')
  vim.cmd('normal! Ax')
  fake.others(note, { 0, 0, 'y' })
  vim.cmd('silent! normal! u')
  same('yonex\n', support.text(note))
end)

test("the help's tags are those that it has", function()
  local doc, folder = support.top .. '/doc', vim.fn.tempname()
  vim.fn.mkdir(folder)
  vim.fn.writefile(vim.fn.readfile(doc .. '/vialshoal.txt'), folder .. '/vialshoal.txt')
  vim.cmd('helptags ' .. folder)
  same(vim.fn.readfile(folder .. '/tags'), vim.fn.readfile(doc .. '/tags'))
end)
