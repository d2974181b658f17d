--- With real engines, which run the program: habits of Vim's users.
local Child = require('test.child')
local support = require('test.support')

local with_folder, two = Child.with_folder, Child.two

-- An engine that doesn't remember every version for long.
local FORGETFUL = [[
import sys
sys.path[0] = %q
from share.engine import transform
transform.MOST_SENT = 300
from share.cli.main import main
sys.exit(main())
]]

--- Waits until others' text has come to a Neovim, which doesn't show it yet.
local function waits(child)
  support.wait(function() return child:run('return #v.note().came > 0') end, 'others\' text')
end

with_folder('a command line says what was seen as it was typed', function(open, folder)
  local ada, bo = two(open, folder)
  ada:type('ione<CR>two<CR>three<CR>four<Esc>gg')
  bo:shows('one\ntwo\nthree\nfour')
  ada:type(':2,3d')
  bo:type('ggOA line<Esc>')
  waits(ada)
  ada:type('<CR>')
  bo:shows('A line\none\nfour')
  ada:shows('A line\none\nfour')
  -- The end of a search ends what an operator takes.
  ada:type('1Gwd/four')
  bo:type('ggO2nd<Esc>')
  waits(ada)
  ada:type('<CR>')
  bo:shows('2nd\nA \nfour')
  -- What was begun and isn't done.
  ada:type('G0d/ou')
  bo:type('ggO3rd<Esc>')
  waits(ada)
  ada:type('<Esc>')
  ada:shows('3rd\n2nd\nA \nfour')
  Child.meet({ ada, bo })
end)

with_folder('what a command puts into lines is in these beside another\'s new one', function(open, folder)
  local ada, bo = two(open, folder)
  -- This editor shows what Ada's engine has.
  local beside = open('Ada')
  ada:type('ia<CR>b<CR>c<CR>d<Esc>gg')
  bo:shows('a\nb\nc\nd')
  beside:shows('a\nb\nc\nd')
  ada:type(':2,4s/^/> /')
  bo:type('2GONEW<Esc>')
  beside:shows('a\nNEW\nb\nc\nd')
  waits(ada)
  ada:type('<CR>')
  bo:shows('a\nNEW\n> b\n> c\n> d')
  Child.meet({ ada, bo })
end)

with_folder('a replacement that asks is where it was asked for', function(open, folder)
  local ada, bo = two(open, folder)
  -- Who sees what the engine has sent to Ada's other editor, too.
  local beside = open('Ada')
  ada:type('ia foo<CR>b foo<CR>c foo<Esc>')
  bo:shows('a foo\nb foo\nc foo')
  beside:shows('a foo\nb foo\nc foo')
  ada:begin(':%s/foo/bar/gc<CR>')
  bo:type('ggOA line<Esc>')
  beside:shows('A line\na foo\nb foo\nc foo')
  ada:begin('y')
  bo:type('ggO2nd<Esc>')
  beside:shows('2nd\nA line\na foo\nb foo\nc foo')
  ada:type('ny')
  bo:shows('2nd\nA line\na bar\nb foo\nc bar')
  ada:shows('2nd\nA line\na bar\nb foo\nc bar')
  -- It is one edit.
  ada:type('u')
  bo:shows('2nd\nA line\na foo\nb foo\nc foo')
end)

with_folder('counts, registers and repeats hit what they were begun at', function(open, folder)
  local ada, bo = two(open, folder)
  -- Who sees what the engine has sent to Ada's other editor, too.
  local beside = open('Ada')
  ada:type('iaa b<CR>cc d<CR>ee f<CR>gg h<Esc>1G0dw')
  bo:shows('b\ncc d\nee f\ngg h')
  local lines = ''
  -- What was begun, and its end, which is typed when another has opened a line.
  for _, keys in ipairs({ { '2G0"q', 'dw' }, { '3G02', 'x' }, { '3G0dt', ' ' }, { '3G0r', 'X' } }) do
    local goes_to = keys[1]:gsub('^%d', function(row) return tonumber(row) + select(2, lines:gsub('\n', '')) end)
    if keys[1]:find('"') then
      ada:type(goes_to)
    else
      ada:begin(goes_to)
    end
    bo:type('ggOnew<Esc>')
    lines = lines .. 'new\n'
    support.wait(function() return vim.startswith(beside:text(), lines) end, 'a line')
    ada:type(keys[2])
    Child.meet({ ada, bo, beside })
  end
  bo:shows(lines .. 'b\nd\nXf\ngg h')
  -- What is repeated is done at the cursor.
  ada:type('G0')
  bo:type('ggdd')
  ada:shows(('new\n'):rep(3) .. 'b\nd\nXf\ngg h')
  ada:type('.')
  bo:shows(('new\n'):rep(3) .. 'b\nd\nXf\nXg h')
end)

with_folder('a completion replaces what it has put there', function(open, folder)
  local ada, bo = two(open, folder)
  ada:type('iword1 word2<CR>see wo')
  ada:type('<C-n>')
  bo:shows('word1 word2\nsee word1')
  bo:type('2G0i>> <Esc>')
  waits(ada)
  ada:type('<C-n>')
  ada:type('.<Esc>')
  bo:shows('word1 word2\n>> see word2.')
  ada:shows('word1 word2\n>> see word2.')
end)

with_folder('who is sent the text anew is told', function(open)
  local ada = open('Ada')
  ada:type('itea<Esc>')
  support.wait(function() return ada:is_quiet() end)
  ada:run('v.note().version = 99')
  ada:type('A!<Esc>')
  support.wait(function() return ada:is_quiet() and ada:text() == 'tea' end, 'the text')
  support.wait(function()
    -- It is wider than the screen.
    local told = ada:run([[return vim.fn.execute('messages')]]):gsub('\n', ' ')
    return told:find('There is no version 99 that this editor can have. The note has another text; that of before is in buffer %d')
      and told:find('What you typed is kept, and isn\'t in the note: "!". :VialshoalPutBack puts it back', 1, true)
  end, 'words')
  support.same(true, ada:run('return vim.bo.modified'))
  ada:type('<Cmd>VialshoalPutBack<CR>')
  ada:shows('tea!')
  support.wait(function() return not ada:run('return vim.bo.modified') end, 'all kept')
end)

with_folder('however much waits, a command is carried over', function(_, folder)
  local program = FORGETFUL:format(vim.fn.fnamemodify(support.top .. '/../..', ':p:h'))
  local function opened()
    local child = Child.started(folder, 'Ada')
    child:run([[v.setup({ command = { '/usr/bin/python3', '-B', '-c', ... } })]], program)
    child:type('<Cmd>Vialshoal! picnic<CR>')
    support.wait(function() return child:run('return v.note().is_open and v.note().state.types == true') end)
    return child
  end
  local ada, bo = opened(), opened()
  ada:type('iab<Esc>')
  bo:shows('ab')
  bo:type('0i.<Esc>')
  ada:shows('.ab')
  -- The place isn't sent, which would tell the version.
  ada:run('v.note().tell_place = function() end')
  bo:type('0i!<Esc>')
  ada:shows('!.ab')
  ada:type('G$d')
  bo:run([[
    for number = 1, 400 do
      vim.api.nvim_buf_set_text(0, 0, 0, 0, 0, { 'x' })
      assert(vim.wait(..., function() return v.note().made == v.note().answered and #v.note().changes == 0 end, 1))
    end
  ]], support.PATIENCE)
  waits(ada)
  ada:type('h')
  support.same(('x'):rep(400) .. '!.b', Child.meet({ ada, bo }))
  ada:quit()
  bo:quit()
end)

with_folder('an insertion is one edit of undo, and counts work', function(open, folder)
  local ada, bo = two(open, folder)
  ada:type('ione<CR>two<CR>three<Esc>')
  ada:type('ofour<CR>five<Esc>')
  ada:type('x')
  ada:type('x')
  ada:shows('one\ntwo\nthree\nfour\nfi')
  ada:type('3u')
  bo:shows('one\ntwo\nthree')
  ada:type('u')
  bo:shows('')
  ada:type('3<C-r>')
  bo:shows('one\ntwo\nthree\nfour\nfiv')
  ada:type('<C-r>')
  bo:shows('one\ntwo\nthree\nfour\nfi')
  local function undone(keys, done, before)
    ada:type(keys)
    bo:shows(done)
    ada:type('u')
    bo:shows(before)
    ada:shows(before)
  end
  local text = 'one\ntwo\nthree\nfour\nfi'
  -- A block, a change, a macro, a repeat, a command with a range and a mapping are one each.
  undone('gg0<C-v>jI> <Esc>', '> one\n> two\nthree\nfour\nfi', text)
  undone('ggcwa<CR>b<Esc>', 'a\nb\ntwo\nthree\nfour\nfi', text)
  ada:run([[vim.fn.setreg('q', 'gg0xj0xix\27')]])
  undone('@q', 'ne\nxwo\nthree\nfour\nfi', text)
  undone(':g/o/normal A!<CR>', 'one!\ntwo!\nthree\nfour!\nfi', text)
  undone(':%s/o/0/<CR>', '0ne\ntw0\nthree\nf0ur\nfi', text)
  ada:run([[vim.keymap.set('n', 'Q', 'gg0xddp')]])
  undone('Q', 'two\nne\nthree\nfour\nfi', text)
  -- Others' text in the midst of an insertion.
  ada:type('Gofirst<CR>')
  bo:type('ggOA line<Esc>')
  ada:shows('A line\n' .. text .. '\nfirst\n')
  ada:type('second<Esc>')
  bo:shows('A line\n' .. text .. '\nfirst\nsecond')
  ada:type('u')
  bo:shows('A line\n' .. text)
  Child.meet({ ada, bo })
end)

with_folder('undo by Vim\'s commands works, or says what to use', function(open)
  local ada = open('Ada')
  local function told()
    return ada:run([[return vim.fn.execute('messages')]])
  end
  ada:type('ione<Esc>otwo<Esc>othree<Esc>')
  ada:type(':undo<CR>')
  ada:shows('one\ntwo')
  ada:type(':red<CR>')
  ada:shows('one\ntwo\nthree')
  ada:type(':earlier 2<CR>')
  ada:shows('one')
  ada:type(':lat 2<CR>')
  ada:shows('one\ntwo\nthree')
  ada:type('2g-')
  ada:shows('one')
  ada:type('2g+')
  ada:shows('one\ntwo\nthree')
  for _, keys in ipairs({ ':earlier 10s<CR>', ':undo 1<CR>', ':later 1f<CR>', ':undolist<CR>', 'U' }) do
    ada:type('<Cmd>messages clear<CR>' .. keys)
    support.wait(function() return told():find('or :VialshoalHistory.', 1, true) end, keys)
  end
  ada:shows('one\ntwo\nthree')
  -- In other buffers all are Vim's own.
  ada:type(':new<CR>ix<Esc>:undo<CR>')
  support.same('', ada:run('return vim.fn.getline(1)'))
  ada:type(':quit!<CR>')
end)

with_folder('a note is opened by its name, and by a session', function(open, folder)
  local ada = open('Ada')
  ada:type('ione<CR>two<Esc>:split ' .. folder .. '/file<CR>')
  support.wait(function() return ada:run('return vim.fn.bufnr("vialshoal://picnic") > 0') end)
  ada:type(':mksession ' .. folder .. '/session.vim<CR>')
  support.wait(function() return vim.fn.filereadable(folder .. '/session.vim') == 1 end)
  ada:quit()
  local again = Child.started(folder, 'Ada')
  again:type(':source ' .. folder .. '/session.vim<CR>')
  local buffer = support.wait(function()
    local found = again:run([[
      for buffer, note in pairs(v.notes()) do
        return note.is_open and #vim.fn.win_findbuf(buffer) == 1 and buffer or nil
      end
    ]])
    return type(found) == 'number' and found
  end, 'the session\'s note')
  support.same({ 'one', 'two' }, again:run('return vim.api.nvim_buf_get_lines(..., 0, -1, false)', buffer))
  again:type(':only<CR>:bdelete ' .. buffer .. '<CR>')
  again:does_the_rest()
  again:quit()
  again = Child.started(folder, 'Ada')
  again:type(':edit vialshoal://picnic<CR>')
  support.wait(function() return again:run('return v.note() ~= nil and v.note().is_open and vim.bo.modifiable') end)
  again:type('Gothree<Esc>')
  again:shows('one\ntwo\nthree')
  support.wait(function() return again:is_quiet() end)
  again:type(':edit<CR>:edit!<CR>')
  again:shows('one\ntwo\nthree')
  again:quit()
end)

with_folder('no note is made for a name that is none', function(_, folder)
  local ada = Child.started(folder, 'Ada')
  for _, name in ipairs({ 'café', '.hidden', ('a'):rep(65) }) do
    local buffers = ada:run('return #vim.api.nvim_list_bufs()')
    ada:type('<Cmd>messages clear<CR>:Vialshoal ' .. name .. '<CR>')
    support.wait(function()
      return ada:run([[return vim.fn.execute('messages')]]):find('A name has plain letters', 1, true)
    end, name)
    support.same(buffers, ada:run('return #vim.api.nvim_list_bufs()'))
  end
  ada:type(':edit vialshoal://café<CR>')
  support.same({}, ada:run('return vim.tbl_keys(v.notes())'))
  support.same(false, ada:run('return vim.bo.modifiable'))
  ada:quit()
end)

with_folder('a typing error makes no note', function(open, folder)
  local ada, notes = open('Ada'), folder .. '/Ada/notes'
  ada:run([[
    asked, answer = {}, 2
    vim.fn.confirm = function(words)
      table.insert(asked, words)
      return answer
    end
  ]])
  local buffers = ada:run('return #vim.api.nvim_list_bufs()')
  for number, opens in ipairs({ ':Vialshoal picnik<CR>', ':edit vialshoal://picnik<CR>' }) do
    ada:type(opens)
    support.wait(function()
      return ada:run('return #asked') == number and ada:run('return #vim.tbl_keys(v.notes())') == 1
    end, 'a question')
  end
  support.same('There is no note picnik here. Make a new one?', ada:run('return asked[1]'))
  support.same({ notes .. '/picnic.note' }, vim.fn.glob(notes .. '/*.note', true, true))
  support.same(buffers, ada:run('return #vim.api.nvim_list_bufs()'))
  ada:run('answer = 1')
  ada:type(':Vialshoal plan<CR>')
  support.wait(function() return ada:run('return v.note().name == "plan" and v.note().is_open') end, 'a new note')
  support.same({ 'picnic', 'plan' }, ada:run([[return vim.fn.getcompletion('Vialshoal p', 'cmdline')]]))
  support.same({ 'plan' }, ada:run([[return vim.fn.getcompletion('Vialshoal pl', 'cmdline')]]))
  ada:quit()
end)

with_folder('others see the name that the environment says', function(open, folder)
  vim.env.VIALSHOAL_NAME = 'Zoë'
  local zoe = Child.started(folder, 'Ada', '')
  vim.env.VIALSHOAL_NAME = nil
  zoe:type(':Vialshoal! picnic<CR>')
  support.wait(function() return zoe:run('return v.note().is_open and v.note().state.types == true') end)
  local ada = open('Ada')
  zoe:type('iwords<Esc>')
  support.wait(function()
    return ada:run('return v.note().cursors[1] ~= nil and v.note().cursors[1].name == "Zoë"')
  end, 'a name')
  zoe:quit()
end)

with_folder('who is offline is told, once', function(open, folder)
  local ada = open('Ada', folder .. '/shared/note.log')
  ada:run([[
    told = {}
    vim.notify = function(words) table.insert(told, words) end
  ]])
  -- Not a folder in which a new log could be made.
  vim.fn.writefile({}, folder .. '/away')
  support.exchange(folder .. '/shared', folder .. '/away')
  ada:type('ione<Esc>')
  local offline = 'Offline, all is kept and sent later: picnic'
  support.wait(function() return vim.deep_equal({ offline }, ada:run('return told')) end, 'words')
  ada:type('otwo<Esc>')
  support.wait(function() return ada:run('return v.note().state.unsent > 1') end, 'what is unsent')
  support.same({ offline }, ada:run('return told'))
  support.exchange(folder .. '/shared', folder .. '/away')
  support.wait(function()
    return vim.deep_equal({ offline, 'Online again, all is sent: picnic' }, ada:run('return told'))
  end, 'words')
end)

with_folder('health is told', function(open)
  local ada = open('Ada')
  local function health()
    ada:type(':checkhealth vialshoal<CR>')
    local words = ada:run([[return table.concat(vim.api.nvim_buf_get_lines(0, 0, -1, false), '\n')]])
    ada:type(':bwipeout<CR>')
    return words
  end
  local words = health()
  assert(words:find('OK: [^\n]*note runs') and words:find('OK: note picnic: kept'), words)
  assert(words:find('others see you as "Ada"', 1, true) and not words:find('ERROR'), words)
  ada:run([[v.setup({ command = { '/nowhere/note' } })]])
  words = health()
  assert(words:find('ERROR: /nowhere/note is no program', 1, true), words)
end)
