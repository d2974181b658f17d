--- With real engines, which run the proved program: how Neovims begin and end, and what they ask.
local Child = require('test.child')
local support = require('test.support')

local with_folder, two = Child.with_folder, Child.two

with_folder('a macro lets others\' text in', function(open, folder)
  local ada, bo = two(open, folder)
  ada:type('i<CR><Esc>')
  bo:shows('\n')
  ada:run([[
    -- A macro that only CTRL-C ends.
    vim.fn.setreg('a', 'ggix\27@a')
    -- Whether others' text was seen between two of its keys. They take a while, so that a busy engine keeps up.
    vim.on_key(function()
      came = came or vim.api.nvim_buf_get_lines(0, -2, -1, false)[1]:find('hello') ~= nil
      vim.loop.sleep(1)
    end)
  ]])
  vim.rpcnotify(ada.job, 'nvim_input', '@a')
  bo:type('Gihello<Esc>')
  support.wait(function() return ada:run('return came or false') end, 'others\' text')
  vim.rpcnotify(ada.job, 'nvim_input', '<C-c>')
  -- Amid a macro questions are answered between its keys. One that Neovim guards would be told of CTRL-C instead.
  support.wait(function() return not ada:run('return v.note().takes_key or false') end, 'the macro to end')
  Child.meet({ ada, bo })
end)

with_folder('a command does its work where it was told to', function(open, folder)
  local ada, bo = two(open, folder)
  ada:type('ifoo a<CR>foo b<CR>foo c<Esc>')
  bo:shows('foo a\nfoo b\nfoo c')
  local function waits()
    support.wait(function() return ada:run('return #v.note().came > 0') end, 'others\' text')
  end
  ada:type('gg0<C-v>jjI> ')
  bo:shows('> foo a\nfoo b\nfoo c')
  bo:type('ggOA line<Esc>')
  waits()
  ada:type('<Esc>')
  bo:shows('A line\n> foo a\n> foo b\n> foo c')
  ada:shows('A line\n> foo a\n> foo b\n> foo c')
  -- What is pending when others' text comes.
  ada:type('2G0"add"aP2G0d')
  bo:type('ggO2nd<Esc>')
  waits()
  ada:type('w')
  ada:shows('2nd\nA line\nfoo a\n> foo b\n> foo c')
  Child.meet({ ada, bo })
end)

--- Whether the engine of a Neovim has the note open, as one that ran for long.
local function is_open(child)
  return child:run('v.note().begun = 0; return v.note().is_open')
end

--- Types while something ends the engine, 6 times; what was typed.
local function types_while_killed(child, kills)
  math.randomseed(18)
  local typed = ''
  child:type('i')
  for turn = 1, 6 do
    local keys = ('%d:%s'):format(turn, ('x'):rep(math.random(5, 25)))
    local at = math.random(#keys)
    for number = 1, #keys do
      if number == at then
        kills()
      end
      child:press(keys:sub(number, number))
    end
    child:press('<CR>')
    typed = typed .. keys .. '\n'
    -- Every other time the next engine ends before it has all.
    if turn % 2 == 0 then
      support.wait(function() return is_open(child) end, 'the next engine')
    end
  end
  child:type('<Esc>')
  support.wait(function() return child:is_quiet() end, 'all to be kept')
  return typed
end

with_folder('each key is kept where the engine is killed', function(open)
  local ada = open('Ada')
  ada:type('ibefore<Esc>')
  support.wait(function() return ada:is_quiet() end)
  ada:type('A<CR><Esc>')
  local typed = 'before\n' .. types_while_killed(ada, function() ada:kill_engine() end)
  support.same(typed, ada:text())
  -- Step by step, to what was typed before the first kill.
  while typed ~= '' do
    ada:type('u')
    support.wait(function() return ada:text() ~= typed end, 'an undo')
    local left = ada:text()
    support.same(typed:sub(1, #left), left)
    assert(#left < #typed, left)
    typed = left
  end
  ada:quit()
  open('Ada'):shows('')
end)

with_folder('each key is kept where the line to the engine ends', function(open)
  local ada = open('Ada')
  local typed = types_while_killed(ada, function()
    support.wait(function()
      return ada:run('return pcall(function() vim.loop.kill(vim.fn.jobpid(v.note().job), "sigkill") end)')
    end, 'an engine')
  end)
  support.same(typed, ada:text())
  ada:quit()
  support.same(typed, open('Ada'):text())
end)

with_folder('others type while an engine is killed', function(open, folder)
  local ada, bo = two(open, folder)
  ada:type('iada:<CR>bo:<CR><Esc>')
  bo:shows('ada:\nbo:\n')
  ada:type('ggA')
  bo:type('2GA')
  for number = 0, 2 do
    ada:type('a' .. number .. ' ')
    ada:kill_engine()
    bo:type('b' .. number .. ' ')
    ada:type('c ')
    support.wait(function() return is_open(ada) end, 'the next engine')
    ada:type('d ')
  end
  support.same('ada:a0 c d a1 c d a2 c d \nbo:b0 b1 b2 \n', Child.meet({ ada, bo }))
end)

with_folder('an engine that can\'t be started is tried again', function(open)
  local ada = open('Ada')
  ada:type('ikept')
  ada:run([[
    command = v.note().command
    v.note().command = { '/nowhere/note' }
  ]])
  ada:kill_engine()
  support.wait(function() return ada:run('return v.note().tries > 1 and v.note().told_why ~= nil') end, 'a try that fails')
  support.same('Note:engine ended, all is kept here', ada:run('return v.statusline()'))
  ada:type(' and more')
  assert(ada:run([[return vim.fn.execute('messages')]]):find('nowhere'))
  ada:run('v.note().command = command; vim.cmd("messages clear")')
  ada:type('<Esc>')
  support.wait(function() return ada:is_quiet() end, 'all to be kept')
  support.same('kept and more', ada:text())
end)

with_folder('who quits without an engine loses nothing', function(open)
  local ada = open('Ada')
  ada:type('ikept')
  ada:kill_engine()
  ada:type(' and more<Esc>')
  ada:quit()
  open('Ada'):shows('kept and more')
end)

with_folder('who quits at once loses nothing', function(open)
  local ada = open('Ada')
  ada:type('ione<Esc>')
  ada:run([[
    vim.api.nvim_buf_set_lines(0, 0, 0, false, { ('x'):rep(300000) .. 'all of it' })
    vim.schedule(function() vim.cmd('qa!') end)
  ]])
  vim.fn.jobwait({ ada.job }, support.PATIENCE)
  local again = open('Ada')
  support.same('x', again:text():sub(1, 1))
  support.same('all of it\none', again:text():sub(300001))
  again:type('ggdd<Cmd>bwipeout!<CR>')
  again:quit()
  open('Ada'):shows('one')
end)

with_folder('what was closed just before the end is read', function(open, folder)
  local ada = open('Ada')
  -- It reads once Neovim ends.
  ada:run([[
    local path = ...
    v.setup({ command = { 'sh', '-c', 'while [ ! -e "$0.ends" ]; do sleep 0.01; done; cat >"$0"', path } })
    vim.api.nvim_create_autocmd('ExitPre', { callback = function() vim.fn.writefile({}, path .. '.ends') end })
  ]], folder .. '/read')
  ada:type('<Cmd>Vialshoal other<CR>')
  ada:type('<Cmd>bwipeout!<CR>')
  ada:quit()
  assert(table.concat(vim.fn.readfile(folder .. '/read')):find('"close"', 1, true))
end)

with_folder('what can\'t be opened says why', function(_, folder)
  local ada = Child.opening(folder, 'Ada', nil, nil, '/nowhere')
  support.wait(function() return ada:run('return v.note().job == nil') end)
  support.wait(function() return ada:run([[return vim.fn.execute('messages')]]):find('nowhere') end, 'words')
  support.same('Note:closed', ada:run('return v.statusline()'))
  ada:quit()
end)

with_folder('what commands do with files leaves the text', function(open, folder)
  local ada = open('Ada')
  ada:type('ione<CR>two<Esc>')
  ada:type('<Cmd>edit!<CR>')
  ada:shows('one\ntwo')
  ada:type('othree<Esc>')
  ada:shows('one\ntwo\nthree')
  ada:type('<Cmd>write<CR>')
  ada:type('<Cmd>write ' .. folder .. '/saved<CR>')
  support.wait(function() return vim.fn.filereadable(folder .. '/saved') == 1 end, 'the file')
  support.same({ 'one', 'two', 'three' }, vim.fn.readfile(folder .. '/saved', 'b'))
  ada:type('<Cmd>saveas ' .. folder .. '/copied<CR>')
  support.wait(function() return vim.fn.filereadable(folder .. '/copied') == 1 end, 'the copy')
  support.same({ 'one', 'two', 'three' }, vim.fn.readfile(folder .. '/copied', 'b'))
  ada:does_the_rest()
  support.same({ 'vialshoal://picnic', 0 }, ada:run('return { vim.fn.bufname(), vim.fn.bufexists(...) }', folder .. '/copied'))
  support.wait(function() return ada:is_quiet() end)
  ada:type('<Cmd>bwipeout!<CR>')
  ada:does_the_rest()
  ada:quit()
  support.same('one\ntwo\nthree', open('Ada'):text())
end)

with_folder('who wrote what, and what was before', function(open, folder)
  local ada, bo = two(open, folder)
  ada:type('ione <Esc>')
  bo:shows('one ')
  bo:type('Atwo<Esc>')
  ada:shows('one two')
  ada:type('<Cmd>VialshoalWho<CR>')
  support.wait(function() return ada:run([[return vim.fn.execute('messages')]]):find('you: 4 bytes; .+: 3 bytes') end)
  ada:type('<Cmd>VialshoalHistory<CR>')
  support.wait(function() return ada:run('return vim.bo.buftype') == 'nofile' end, 'the history')
  local function shows(words)
    support.wait(function() return ada:run([[return vim.fn.getline(1)]]) == words end, words)
  end
  shows('one two')
  ada:type('p')
  shows('one ')
  ada:type('<lt>')
  shows('')
  ada:type('q')
  ada:shows('one two')
end)

with_folder('nothing in a text is obeyed', function(open)
  local ada = open('Ada')
  ada:type('ivim: set shiftwidth=3 filetype=lua :<CR>vim: ts=3 :<Esc>')
  support.wait(function() return ada:is_quiet() end)
  ada:quit()
  local again = open('Ada')
  again:run('vim.o.modeline, vim.o.modelines = true, 5')
  again:type('<Cmd>edit!<CR>')
  again:type('<Cmd>doautocmd BufReadPost<CR>')
  support.same({ 8, 8, '', false }, again:run('return { vim.bo.shiftwidth, vim.bo.tabstop, vim.bo.filetype, vim.bo.modeline }'))
end)
