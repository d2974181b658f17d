--- A Neovim that a test types in, with a person's data of its own.
local support = require('test.support')

local NOTE = support.top .. '/../../bin/note'

local Child = {}
Child.__index = Child

--- Starts a Neovim that has the plug-in. Others see the person's name, or another one; where that is empty, none is set.
function Child.started(folder, person, name, link, program)
  local job = vim.fn.jobstart({ vim.v.progpath, '--embed', '--headless', '-u', 'NONE', '-i', 'NONE', '-n' }, {
    rpc = true,
    env = { VIALSHOAL_DATA = folder .. '/' .. person, VIALSHOAL_LINK = link, VIALSHOAL_PROGRAM = program },
  })
  local self = setmetatable({ job = job, person = person, folder = folder }, Child)
  self:run([[
    vim.opt.runtimepath:prepend(...)
    vim.cmd('runtime plugin/vialshoal.lua')
    v = require('vialshoal')
  ]], support.top)
  if name ~= '' then
    self:run('v.setup({ name = ... })', name or person)
  end
  return self
end

--- Starts a Neovim that is opening the note picnic.
function Child.opening(folder, person, log, link, program)
  local self = Child.started(folder, person, nil, link, program)
  vim.rpcrequest(self.job, 'nvim_command', 'Vialshoal! picnic ' .. (log or ''))
  return self
end

--- Starts a Neovim that has opened the note picnic.
function Child.new(folder, person, ...)
  local self = Child.opening(folder, person, ...)
  support.wait(function() return self:run('return v.note().is_open and v.note().state.types == true') end,
    person .. ' to have the note open')
  return self
end

--- Runs Lua in it.
function Child:run(code, ...)
  return vim.rpcrequest(self.job, 'nvim_exec_lua', code, { ... })
end

--- Has it do what it has put off until its keys were taken.
function Child:does_the_rest()
  self:run('local done; vim.schedule(function() done = true end); vim.wait(..., function() return done end)', support.PATIENCE)
end

--- Types keys, as a terminal would send them.
function Child:press(keys)
  while #keys > 0 do
    keys = keys:sub(vim.rpcrequest(self.job, 'nvim_input', keys) + 1)
  end
end

--- Types keys, and waits until they are taken, as no command is that wants another key.
function Child:type(keys)
  self:press(keys)
  vim.rpcrequest(self.job, 'nvim_eval', '1')
end

--- Types keys, and waits until the command wants another one.
function Child:begin(keys)
  self:press(keys)
  support.wait(function() return vim.rpcrequest(self.job, 'nvim_get_mode').blocking end, keys)
end

--- Gives it a screen of so many columns: without one it asks for no key where words are wider.
function Child:gets_screen(columns)
  vim.rpcrequest(self.job, 'nvim_ui_attach', columns, 24, vim.empty_dict())
  self:run([[
    local echo = vim.api.nvim_echo
    vim.api.nvim_echo = function(...)
      echo(...)
      vim.rpcnotify(1, 'nvim_exec_lua', "require('test.support').has_echoed = true", {})
    end
  ]])
end

--- Types keys, and waits until something is said because of them; whether it takes commands then, and wants no key first.
function Child:says_and_goes_on(keys)
  support.has_echoed, support.goes_on = false, false
  self:press(keys)
  local blocks
  local function waits_until(is_so)
    support.wait(function()
      blocks = vim.rpcrequest(self.job, 'nvim_get_mode').blocking
      return blocks or is_so()
    end, keys)
  end
  waits_until(function() return support.has_echoed end)
  if not blocks then
    vim.rpcnotify(self.job, 'nvim_exec_lua', [[vim.rpcnotify(1, 'nvim_exec_lua', "require('test.support').goes_on = true", {})]], {})
    waits_until(function() return support.goes_on end)
  end
  if blocks then
    self:press('<CR>')
  end
  return not blocks
end

--- The process that has the note open; nil if there is none.
function Child:engine()
  local stat = vim.loop.fs_stat(('%s/%s/run/picnic.lock'):format(self.folder, self.person))
  for line in io.lines('/proc/locks') do
    local process, inode = line:match('FLOCK +ADVISORY +WRITE +(%d+) [%x:]+:(%d+) ')
    if stat and tonumber(inode) == stat.ino then
      return tonumber(process)
    end
  end
end

--- Kills the process that has the note open.
function Child:kill_engine()
  vim.loop.kill(support.wait(function() return self:engine() end, 'an engine'), 'sigkill')
end

--- Its text.
function Child:text()
  return self:run([[
    local note = v.note()
    local lines = vim.api.nvim_buf_get_lines(note.buffer, 0, -1, false)
    if not note.is_unsure and not vim.deep_equal(lines, note.lines) then
      error('other lines are known: ' .. vim.inspect({ lines, note.lines }))
    end
    return require('vialshoal.text').join(lines, note.has_end)
  ]])
end

--- Whether all that was typed is answered.
function Child:is_quiet()
  return self:run([[
    local note = v.note()
    return #note.changes == 0 and not note.is_unsure and not note.is_lost and note.made == note.answered
  ]])
end

--- Waits until it has a text.
function Child:shows(wanted)
  if not pcall(support.wait, function() return self:text() == wanted end) then
    support.same(wanted, self:text(), self.person)
  end
end

--- Ends it, as a user does. No error may have been told.
function Child:quit()
  local has_ended = vim.fn.jobwait({ self.job }, 0)[1] ~= -1
  local told = has_ended and '' or self:run([[return vim.fn.execute('messages')]])
  pcall(vim.rpcrequest, self.job, 'nvim_command', 'qa!')
  vim.fn.jobwait({ self.job }, support.PATIENCE)
  assert(not told:find('E%d+:') and not told:find('Error') and not told:find('Vialshoal:'), told)
end

--- Waits until all have one text with all sent, and returns that.
function Child.meet(children)
  local found
  support.wait(function()
    local texts = {}
    for _, child in ipairs(children) do
      if not child:is_quiet() then
        return false
      end
      texts[child:text()] = true
    end
    found = next(texts)
    return next(texts, found) == nil
  end, 'all to meet')
  return found
end

--- Calls a test with a folder and a way to open the note there; what is open is closed at the end.
function Child.with_folder(name, body)
  support.test(name, function()
    local folder, children = vim.fn.tempname(), {}
    vim.fn.mkdir(folder, 'p', 448)
    local is_done, why = xpcall(body, debug.traceback, function(...)
      local child = Child.new(folder, ...)
      table.insert(children, child)
      return child
    end, folder)
    for _, child in ipairs(children) do
      child:quit()
    end
    vim.fn.delete(folder, 'rf')
    assert(is_done, why)
  end)
end

--- Opens the note for two people who share it by a log.
function Child.two(open, folder)
  local ada = open('Ada', folder .. '/shared/note.log')
  vim.env.VIALSHOAL_DATA = folder .. '/Ada'
  local link = vim.trim(vim.fn.system({ NOTE, 'link', 'picnic' }))
  return ada, open('Bo', nil, link)
end

return Child
