--- Typing that suggests, with no engine: what is sent for what is typed and deleted, and what the text shows meanwhile.
local fake = require('test.fake')
local support = require('test.support')
local Suggesting = require('vialshoal.suggesting')

local test, same = support.test, support.same

--- A note that has a text, in which one suggests.
local function with(words)
  local note = fake.with(words)
  Suggesting.toggle(note)
  fake.sent(note)
  return note
end

--- Gives keys, each of which is told before Vim takes it.
local function press(note, keys)
  note:before_key()
  vim.api.nvim_feedkeys(vim.api.nvim_replace_termcodes(keys, true, false, true), 'xt', false)
  note:flush_command()
end

--- What is suggested: a begin, an end and a text each.
local function made(note)
  note:flush()
  note.suggesting:finish()
  return vim.tbl_map(function(line)
    same('suggest', line['do'])
    return { line.begin, line['end'], line.new }
  end, fake.sent(note))
end

--- What is shown: from where to where, and the words behind the line.
local function shown(note)
  local space = vim.api.nvim_get_namespaces().vialshoal_suggesting
  return vim.tbl_map(function(mark)
    return { mark[2], mark[3], mark[4].end_row, mark[4].end_col, mark[4].virt_text[1][1] }
  end, vim.api.nvim_buf_get_extmarks(note.buffer, space, 0, -1, { details = true }))
end

test('what commands do is suggested', function()
  for _, case in ipairs({
    { { 1, 0 }, { 'x', 'x' }, { { 0, 2, '' } } },
    { { 1, 2 }, { 'X', 'X' }, { { 0, 2, '' } } },
    { { 1, 0 }, { 'cwjam<Esc>' }, { { 0, 3, 'jam' } } },
    { { 1, 0 }, { 'dw', 'ihoney <Esc>' }, { { 0, 4, 'honey ' } } },
    { { 1, 4 }, { 'iso <Esc>' }, { { 4, 4, 'so ' } } },
    { { 1, 0 }, { 'dd', 'dd' }, { { 0, 13, '' } } },
    { { 2, 1 }, { 'dd' }, { { 8, 13, '' } } },
    { { 1, 0 }, { 'ofig<Esc>' }, { { 8, 8, 'fig\n' } } },
    { { 2, 0 }, { 'ofig<Esc>' }, { { 13, 13, 'fig\n' } } },
    { { 1, 0 }, { ':silent %s/e/ee/<CR>' }, { { 1, 1, 'e' }, { 9, 9, 'e' } } },
    { { 1, 0 }, { 'x', 'jx' }, { { 0, 1, '' }, { 9, 10, '' } } },
    { { 1, 0 }, { 'J' }, { { 7, 8, ' ' } } },
    { { 1, 6 }, { 'a<CR>fig<Esc>' }, { { 7, 7, '\nfig' } } },
  }) do
    local note = with('tea jam\nmeek\n')
    vim.api.nvim_win_set_cursor(0, case[1])
    for _, keys in ipairs(case[2]) do
      press(note, keys)
      same('tea jam\nmeek\n', support.text(note), vim.inspect(case))
      fake.check(note)
    end
    same(case[3], made(note), vim.inspect(case))
    same(0, note.made)
    note.suggesting:stop()
  end
end)

test('equal characters are where one typed them', function()
  local note = with('aaaa\n')
  vim.api.nvim_win_set_cursor(0, { 1, 2 })
  press(note, 'ia<Esc>')
  same({ { 2, 2, 'a' } }, made(note))
  vim.api.nvim_win_set_cursor(0, { 1, 1 })
  press(note, 'x')
  same({ { 1, 2, '' } }, made(note))
end)

test('what is gathered is shown, moves with the text, and is sent as one goes elsewhere', function()
  local note = with('tea\nmilk\n')
  vim.api.nvim_win_set_cursor(0, { 1, 1 })
  press(note, 'x')
  press(note, 'ix<Esc>')
  same({ { 0, 1, 0, 2, ' you -> "x"' } }, shown(note))
  fake.others(note, { 0, 0, '> ' })
  same({ { 0, 3, 0, 4, ' you -> "x"' } }, shown(note))
  same({}, fake.sent(note))
  vim.api.nvim_win_set_cursor(0, { 2, 1 })
  note.suggesting:passes()
  same({}, shown(note))
  same({ { ['do'] = 'suggest', version = 1, begin = 3, ['end'] = 4, new = 'x', id = note.asked } }, fake.sent(note))
  -- Where all of it is deleted, nothing is suggested of what only went.
  press(note, 'x')
  fake.others(note, { 0, 11, '' })
  same({}, made(note))
end)

test('it is sent after a rest', function()
  local note = with('tea\n')
  support.with(vim.env, 'VIALSHOAL_PAUSE', '0.01', function()
    press(note, 'x')
    support.wait(function() return #note.sent > 0 end, 'the suggestion')
  end)
  same({ { 0, 1, '' } }, made(note))
end)

test('it is taken back', function()
  local note = with('tea\n')
  press(note, 'x')
  note.suggesting:undo()
  same({ {}, {} }, { shown(note), made(note) })
  press(note, 'x')
  same(1, #made(note))
  note:take({ id = note.asked, answer = 'suggest', thread = '7:3' })
  note.suggesting:undo()
  same({ { ['do'] = 'withdraw', to = '7:3', id = note.asked } }, fake.sent(note))
  note.suggesting:undo()
  same('You have suggested nothing here that could be taken back.', note.told.words)
end)

test('what is refused, or not sent, is kept', function()
  local note = with('tea\n')
  press(note, 'ojam<Esc>')
  same(1, #made(note))
  note:take({ id = note.asked, answer = 'suggest', error = 'margin', words = 'There is no margin.' })
  same('There is no margin. What you wrote is in the unnamed register.', note.told.words)
  same('jam\n', vim.fn.getreg('"'))
  press(note, 'ofig<Esc>')
  note.is_open = false
  note.suggesting:finish()
  same({ { 0, 3, 0, 3, ' you -> "fig"' } }, shown(note))
  note.suggesting:stop()
  same('fig\n', vim.fn.getreg('"'))
  same({}, fake.sent(note))
end)

test('what holds places goes on before it is put back', function()
  local note = with('tea\n')
  note.is_held = function() return true end
  press(note, 'x')
  same('ea\n', support.text(note))
  note.is_held = nil
  support.wait(function() return support.text(note) == 'tea\n' end, 'the text')
  same({ { 0, 1, '' } }, made(note))
end)

test('a note without a margin has no such mode', function()
  local note = fake.with('tea\n')
  vim.bo[note.buffer].autoindent = true
  Suggesting.toggle(note)
  same(false, vim.bo[note.buffer].autoindent)
  note:take({ id = note.asked, answer = 'remarks', error = 'margin', words = 'There is no margin.' })
  same({ true, true }, { note.suggesting == nil, vim.bo[note.buffer].autoindent })
  fake.sent(note)
  press(note, 'x')
  same('ea\n', support.text(note))
  same('edit', fake.sent(note)[1]['do'])
end)

test('the hidden line end is suggested, too', function()
  local note = with('tea\n')
  vim.bo[note.buffer].endofline = false
  note:end_changed(false)
  same({ { 3, 4, '' } }, made(note))
  same({ true, 'tea\n' }, { vim.bo[note.buffer].endofline, support.text(note) })
end)
