--- Writes a note together with others. `:Vialshoal NAME` opens one.
---
--- An engine, the program `note`, has it open; docs/ENGINE.md has the lines that are said to it and by it. Text and
--- names come from other people: they are shown, and nothing in them is obeyed.
local api = vim.api
local Note = require('vialshoal.note')
local again = require('vialshoal.again')
local cursors = require('vialshoal.cursors')
local engine = require('vialshoal.engine')
local history = require('vialshoal.history')
local interrupt = require('vialshoal.interrupt')
local review = require('vialshoal.review')
local say = require('vialshoal.say')
local text = require('vialshoal.text')
local undo = require('vialshoal.undo')

local M = {}

local PREFIX = 'vialshoal://'
local MOST_NAME = 64
-- An engine that ran for so long is started again at once when it ends.
local STEADY_SECONDS = 2
-- Neovim's end waits so long at most for an engine that has to read yet, as on a busy machine.
local END_MILLISECONDS = 10000
-- Who closes a note waits so long at most until its engine, or the next one if it ended, has all that was typed.
local AWAY_MILLISECONDS = 5000
-- So often it is looked whether a command still holds places for which lines wait.
local AGAIN_MILLISECONDS = 50

-- The notes that are open, by their buffers.
local notes = {}
local groups = api.nvim_create_augroup('vialshoal', {})
local keys = api.nvim_create_namespace('vialshoal_keys')

--- The program that was installed with this plug-in, or is beside it, or the one on the path.
local function program()
  local here = vim.fn.fnamemodify(debug.getinfo(1, 'S').source:sub(2), ':p')
  local top = here:match('^(.*)/share/nvim/site/') or vim.fn.fnamemodify(here, ':h:h:h:h:h')
  local beside = top .. '/bin/note'
  return vim.fn.executable(beside) == 1 and beside or 'note'
end

--- The name that others see: what the environment says, or the account's.
local function own_name()
  local name = vim.env.VIALSHOAL_NAME
  return name and name ~= '' and name or vim.env.USER or ''
end

M.options = { command = { program() }, name = own_name(), colour = nil, remarks = true }

--- Sets options: `command`, a list; `name`, by which others see you; `colour`, as "#3366cc"; whether `remarks` are shown.
function M.setup(options)
  M.options = vim.tbl_extend('force', M.options, options or {})
end

local function clock()
  return vim.loop.hrtime() / 1e9
end

--- The notes that are open, by their buffers.
function M.notes()
  return notes
end

--- The note of a buffer, the current one if none is given.
function M.note(buffer)
  return notes[buffer or api.nvim_get_current_buf()]
end

--- Keeps a text that has to give way, in a buffer of its own.
local function beside(words)
  local buffer = api.nvim_create_buf(true, true)
  vim.bo[buffer].modeline = false
  api.nvim_buf_set_lines(buffer, 0, -1, false, vim.split(words, '\n', { plain = true }))
  local told = ('The note has another text; that of before is in buffer %d.'):format(buffer)
  say.words(told)
  return told
end

-- A buffer of a note.

--- Sets the options of a note's buffer: what keeps files can't keep a note, and undo is the engine's.
local function set_options(buffer)
  for name, value in pairs({ buftype = 'acwrite', bufhidden = 'hide', swapfile = false, undofile = false,
    undolevels = -1, modeline = false, fixendofline = false, fileformat = 'unix', buflisted = true }) do
    vim.bo[buffer][name] = value
  end
end

--- Closes a note whose buffer goes, unless it is only read anew, as `:edit` does.
local function detached(note)
  note:send_changes()
  note.applies = true
  vim.schedule(function()
    if note.applies then
      M.close(note.buffer)
    end
  end)
end

--- Has a note be told what happens to its buffer.
local function attach(note)
  return api.nvim_buf_attach(note.buffer, false, {
    on_bytes = function(_, _, _, row, column, _, _, _, gone, _, _, came)
      note:hinted(row, column, gone, came)
    end,
    on_lines = function(_, _, _, first, last, new_last)
      note:changed(first, last, new_last)
    end,
    on_detach = function()
      detached(note)
    end,
  })
end

--- Gives a note's buffer its name back after `:saveas` or `:file`: what is typed goes on into the note.
local function keep_name(note)
  local own, given = PREFIX .. note.name, api.nvim_buf_get_name(note.buffer)
  if notes[note.buffer] ~= note or given == own then
    return
  end
  -- Vim keeps a name of before in a buffer that has no text.
  local function drop(name)
    for _, buffer in ipairs(api.nvim_list_bufs()) do
      if api.nvim_buf_get_name(buffer) == name and not api.nvim_buf_is_loaded(buffer) then
        api.nvim_buf_delete(buffer, { force = true })
      end
    end
  end
  drop(own)
  api.nvim_buf_set_name(note.buffer, own)
  drop(given)
end

local let_in

local function set_events(note)
  local function on(events, callback)
    api.nvim_create_autocmd(events, { group = groups, buffer = note.buffer, callback = callback })
  end
  on({ 'CursorMoved', 'CursorMovedI', 'ModeChanged' }, function() note:tell_place() end)
  on('ModeChanged', function()
    note:mode_changed(vim.v.event.old_mode, vim.v.event.new_mode)
    -- When the command has done what it was to do.
    vim.schedule(function() let_in(note) end)
  end)
  on('BufWriteCmd', function(event) M.write(note, event.match) end)
  on('BufFilePost', function()
    -- When `:saveas` has written its file.
    vim.schedule(function() keep_name(note) end)
  end)
end

--- Saves a note as a file, which `:write` names.
function M.write(note, path)
  if path == PREFIX .. note.name and note.is_away then
    return say.words('The engine is being started again. What you typed last is kept here until then.')
  elseif path == PREFIX .. note.name and note.refused then
    vim.bo[note.buffer].modified = false
    return say.words('All is kept but words that the note didn\'t take. :VialshoalPutBack types them again.')
  elseif path == PREFIX .. note.name then
    vim.bo[note.buffer].modified = false
    return say.words('All is kept; :w FILE saves it as a file.')
  end
  note:ask({ ['do'] = 'save', path = path, replace = vim.v.cmdbang == 1 }, function(answer)
    if answer.path then
      say.words('Saved as ' .. answer.path)
    end
  end)
end

--- Shows the text again that a command such as `:edit` has taken out of the buffer.
local function refill(note)
  set_options(note.buffer)
  note:fill(text.join(note.lines, note.has_end))
  attach(note)
  if note.remarks then
    review.noticed(note)
  end
end

--- Calls a function, and says why where that fails. CTRL-C ends what is called here, too; but the user's macro is
--- to end, so it is handed on.
local function guarded(call, ...)
  local is_done, why = pcall(call, ...)
  if is_done then
    return true
  elseif interrupt.is_told_by(why) then
    interrupt.press()
  else
    say.words('Vialshoal: ' .. tostring(why))
  end
  return false
end

--- Asks a key's note whether it lets others' text in first.
local function before_key()
  local note = notes[api.nvim_get_current_buf()]
  if note and not note.takes_key then
    note.takes_key = true
    guarded(note.before_key, note)
    note.takes_key = false
  end
end

-- Opening and closing.

local start, send_open

--- Says why no engine opens the note again, unless that was said last.
local function say_once(note, words)
  if words ~= '' and words ~= note.told_why then
    note.told_why = words
    say.words(words)
  end
end

--- Starts the engine again, after a pause that grows with each try. The user types on meanwhile.
local function start_later(note)
  local pause = again.pause(note.tries)
  note.tries = note.tries + 1
  vim.defer_fn(function()
    if notes[note.buffer] == note and note.is_away and not note.job then
      local is_started, why = pcall(start, note)
      if not is_started then
        note.job = nil
        say_once(note, tostring(why))
        start_later(note)
      end
    end
  end, pause * 1000)
end

--- Has the user type on though the engine ended, and starts it again; unless it never had the note open.
local function ended(note, words)
  if notes[note.buffer] ~= note or note.is_closing then
    return
  end
  note.job, note.came = nil, {}
  note.shows.cursors({})
  if not note:takes_keys() then
    vim.bo[note.buffer].modifiable = false
    review.ended(note)
    return say.words("The note isn't open any more. " .. words)
  end
  if note.is_open and clock() > note.begun + STEADY_SECONDS then
    note.tries = 0
  end
  if note.is_open then
    local was_asked = note:engine_ended()
    say.words('The engine ended and is started again. Nothing is lost; type on. '
      .. (was_asked and 'Look whether your last command was done, and else repeat it. ' or '') .. words)
    review.ended(note)
  else
    say_once(note, words)
  end
  start_later(note)
end

--- Does what a line says, and asks for the whole text where that fails.
local function take(note, line)
  if line == '' or not api.nvim_buf_is_valid(note.buffer) then
    return
  end
  local is_done = guarded(function()
    note:take(vim.json.decode(line, { luanil = { object = true } }))
  end)
  if not is_done then
    note:lost()
  end
end

--- Does what the lines say that came, unless a command holds places: it would do its work where others' text is now.
function let_in(note)
  while note.came[1] and not note:is_held() do
    take(note, table.remove(note.came, 1))
  end
  note:tell_version(#note.came)
  if note.came[1] and not note.looks_again then
    -- Not every end of a command is told.
    note.looks_again = true
    vim.defer_fn(function()
      note.looks_again = false
      let_in(note)
    end, AGAIN_MILLISECONDS)
  end
end

--- Starts a note's engine, and has it open the note.
function start(note)
  note.begun, note.came = clock(), {}
  if not note.is_away then
    note.types, note.editor = false, again.new_editor()
  end
  local job
  job = engine.start(note.command, note.environment, function(line)
    if note.job == job then
      if not note:take_ahead(line) then
        table.insert(note.came, line)
      end
      let_in(note)
    end
  end, function(words)
    if note.job == job then
      interrupt.behind(ended, note, words)
    end
  end)
  note.job = job
  send_open(note)
end

--- Asks whether a note that isn't here is to be made.
local function ask_for_new(note)
  if notes[note.buffer] ~= note or not note.job then
    return
  end
  local question = ("There is no note %s here. Make a new one?"):format(note.name)
  if vim.fn.confirm(question, '&Yes\n&No', 2) == 1 then
    note.makes = true
    send_open(note)
  else
    api.nvim_buf_delete(note.buffer, { force = true })
  end
end

--- Has the engine open the note, unless it would have to make it.
function send_open(note)
  note.waiting = {
    [0] = function(answer)
      if answer.error == 'absent' and not note.is_away then
        return vim.schedule(function() ask_for_new(note) end)
      elseif answer.error then
        engine.close(note.job)
        note.job = nil
        return note.is_away and start_later(note)
      end
      note:opened(answer)
      note:show_modified()
      note:tell_place()
    end,
  }
  note.send({ id = 0, ['do'] = 'open', protocol = 1, units = { 'utf-8' }, name = text.name(M.options.name),
    colour = M.options.colour, new = note.makes, remarks = M.options.remarks or nil, editor = note.editor,
    again = again.to_carry_over(note) })
end

--- Tells once that the log can't be reached, and that all is sent again: a status line may not have that.
local function tell_of_log(note, state)
  if state.log == 'away' and not note.was_away then
    note.was_away = true
    vim.notify(say.short(('Offline, all is kept and sent later: %s'):format(note.name)), vim.log.levels.WARN)
  elseif state.log == 'sent' and note.was_away then
    note.was_away = false
    vim.notify(say.short(('Online again, all is sent: %s'):format(note.name)), vim.log.levels.INFO)
  end
end

--- A note's buffer, which has no text yet.
local function new_note(buffer, name, log, link, makes)
  local note
  note = Note.new(buffer, function(line) engine.send(note.job, line) end, clock, {
    words = say.words,
    beside = beside,
    cursors = function(shown) cursors.show(buffer, note.lines, shown) end,
    remarks = function()
      review.noticed(note)
      vim.cmd('redrawstatus!')
    end,
    state = function(state)
      -- Only where that changes, so that the user can set it, too.
      if state.types ~= nil and state.types ~= note.types then
        note.types = state.types
        vim.bo[buffer].modifiable = state.types
      end
      tell_of_log(note, state)
      vim.cmd('redrawstatus!')
    end,
  })
  note.name, note.tries = name, 0
  -- Who names a log or has a link means a note that may not be here yet.
  note.makes = makes or (log or '') .. (link or '') ~= ''
  note.command = vim.list_extend(vim.deepcopy(M.options.command), { 'engine', name })
  if log and log ~= '' then
    vim.list_extend(note.command, { '--log', log })
  end
  -- The link has the note's key, and others see arguments.
  note.environment = link and link ~= '' and { VIALSHOAL_LINK = link } or nil
  return note
end

--- Why a note can't have a name; nil where it can.
local function name_fault(name)
  if not name:find('^%w[%w._-]*$') or #name > MOST_NAME then
    return ('A name has plain letters, digits and . - _, %d at most.'):format(MOST_NAME)
  end
end

--- Opens a note in a buffer that is loaded.
local function open_in(buffer, name, ...)
  set_options(buffer)
  api.nvim_buf_set_lines(buffer, 0, -1, false, {})
  local note = new_note(buffer, name, ...)
  notes[buffer] = note
  attach(note)
  set_events(note)
  undo.set_up(buffer)
  vim.bo[buffer].modifiable = false
  vim.on_key(before_key, keys)
  start(note)
end

-- The log and the link of a note whose buffer is being loaded.
local asked = {}

--- Has a buffer be the note that its name says: Vim has just loaded it, or reads it anew.
function M.load(buffer)
  local note = notes[buffer]
  if note then
    return interrupt.behind(refill, note)
  end
  local name = api.nvim_buf_get_name(buffer):sub(#PREFIX + 1)
  local fault = name_fault(name)
  if fault then
    vim.bo[buffer].buftype, vim.bo[buffer].bufhidden, vim.bo[buffer].modifiable = 'nofile', 'wipe', false
    return say.words(fault)
  end
  open_in(buffer, name, unpack(asked[buffer] or {}))
end

--- Opens the notes that a session had in its windows.
function M.load_session()
  for _, buffer in ipairs(api.nvim_list_bufs()) do
    local is_named = vim.startswith(api.nvim_buf_get_name(buffer), PREFIX)
    if is_named and api.nvim_buf_is_loaded(buffer) and not notes[buffer] then
      M.load(buffer)
    end
  end
end

--- The names of the notes that are here and begin so.
function M.names(begun)
  local function variable(name, otherwise)
    local value = vim.env[name]
    return value and value ~= '' and value or otherwise
  end
  local data = variable('VIALSHOAL_DATA', variable('XDG_DATA_HOME', vim.fn.expand('~/.local/share')) .. '/vialshoal')
  local found = vim.fn.globpath(vim.fn.escape(data, ',') .. '/notes', '*.note', true, true)
  return vim.tbl_filter(function(name) return vim.startswith(name, begun) end,
    vim.tbl_map(function(path) return vim.fn.fnamemodify(path, ':t:r') end, found))
end

--- Opens a note; `log` carries it between people, and by `link` another's is joined. One that isn't here is made unasked if `makes`.
function M.open(name, log, link, makes)
  local fault = name_fault(name)
  if fault then
    return say.words(fault)
  end
  local buffer = vim.fn.bufadd(PREFIX .. name)
  if not notes[buffer] then
    asked[buffer] = { log or '', link or '', makes }
    vim.fn.bufload(buffer)
    if not notes[buffer] then
      -- It was loaded, or no event told of it.
      M.load(buffer)
    end
    asked[buffer] = nil
  elseif not notes[buffer].job then
    start(notes[buffer])
  end
  api.nvim_set_current_buf(buffer)
end

--- Waits until the engine of a note, which may have ended, has all that was typed. Keeps the text beside if there is none.
local function wait_for_engine(note)
  local function has_all() return note.made == note.answered end
  if api.nvim_buf_is_loaded(note.buffer) and not note.applies then
    note:flush()
    vim.wait(AWAY_MILLISECONDS, has_all)
  end
  if note.is_away and not has_all() then
    beside(text.join(note.lines, note.has_end))
  end
end

--- Closes a buffer's note, with all sent that was typed.
function M.close(buffer)
  local note = notes[buffer]
  if not note or note.is_waiting then
    return
  end
  if note:takes_keys() then
    note.is_waiting = true
    wait_for_engine(note)
  end
  notes[buffer] = nil
  note.is_closing = true
  if note.suggesting then
    note.suggesting:stop()
  end
  if note.is_open and api.nvim_buf_is_loaded(buffer) then
    pcall(note.flush, note)
  end
  if note.job then
    engine.close(note.job)
  end
  note.is_open = false
  if api.nvim_buf_is_valid(buffer) then
    api.nvim_clear_autocmds({ group = groups, buffer = buffer })
  end
end

-- A buffer's own events have no OptionSet.
api.nvim_create_autocmd('OptionSet', {
  group = groups,
  pattern = 'endofline',
  callback = function()
    local note = M.note()
    if note and not note.applies then
      note:end_changed(vim.bo[note.buffer].endofline)
    end
  end,
})

api.nvim_create_autocmd('VimLeavePre', {
  group = groups,
  callback = function()
    for buffer in pairs(notes) do
      M.close(buffer)
    end
    engine.wait(END_MILLISECONDS)
  end,
})

-- Commands.

--- Calls a function with the current buffer's note.
local function with_note(call)
  local note = M.note()
  if note then
    return call(note)
  end
  say.words('This buffer is no note.')
end

--- Takes back your own last edit, or so many of them, whatever others wrote since.
function M.undo(count)
  with_note(function(note)
    if note.suggesting then
      note.suggesting:undo()
    else
      undo.ask(note, 'undo', count)
    end
  end)
end

--- Makes again what was taken back.
function M.redo(count)
  with_note(function(note) undo.ask(note, 'redo', count) end)
end

--- Types the words again that the note didn't take.
function M.put_back()
  with_note(again.put_back)
end

--- Goes through the older texts.
function M.history()
  with_note(history.open)
end

--- Says who wrote some lines, which count from 1.
function M.who(first, last)
  with_note(function(note)
    note:flush()
    local begin = text.offset(note.lines, first - 1)
    local size = text.offset(note.lines, math.min(last, #note.lines)) - 1
    note:ask({ ['do'] = 'who', version = note.version, begin = begin, ['end'] = size }, function(answer)
      if answer.error then
        return
      end
      local sizes, order = {}, {}
      for _, stretch in ipairs(answer.stretches) do
        local who = history.author(stretch)
        if not sizes[who] then
          order[#order + 1] = who
        end
        sizes[who] = (sizes[who] or 0) + stretch['end'] - stretch.begin
      end
      say.words(#order == 0 and 'There is nothing that anybody wrote.' or table.concat(vim.tbl_map(function(who)
        return ('%s: %d bytes'):format(who, sizes[who])
      end, order), '; '))
    end)
  end)
end

--- Does a command of a review.
function M.review(what, given)
  local reviewing = require('vialshoal.reviewing')
  local listed = reviewing.of_threads[what] and review.listed_here()
  if listed and notes[listed.buffer] then
    return reviewing[what](notes[listed.buffer], given)
  end
  with_note(function(note) reviewing[what](note, given) end)
end

--- How many open remarks a note has, in words.
local function remarks_words(note)
  local open = note.remarks and note.remarks.open or 0
  return open == 0 and '' or (', %d remark%s'):format(open, open == 1 and '' or 's')
end

--- How a note is, in words.
function M.state_words(note)
  local state = note.state
  if note.is_away then
    return 'engine ended, all is kept here'
  elseif not note.job then
    return 'closed'
  elseif not note.is_open then
    return state.of and ('opening %d of %d'):format(state.done, state.of) or 'opening'
  end
  local words = state.log == 'away' and ('offline, %d kept'):format(state.unsent or 0)
    or state.log == 'sending' and 'sending' or state.log == 'sent' and 'sent' or 'kept'
  if state.of then
    words = ('%s, %d of %d read'):format(words, state.read, state.of)
  end
  if (state.on or 1) > 1 then
    words = ('%s, %d on'):format(words, state.on)
  end
  words = words .. remarks_words(note) .. (note.suggesting and ', suggesting' or '')
  if not state.types then
    words = words .. ", can't type yet"
  end
  if state.left_out then
    words = words .. ', left out: ' .. history.left_out(state.left_out)
  end
  if state.renewed then
    words = words .. ', renewed by ' .. history.author(state.renewed)
  end
  if state.unproved then
    words = words .. ', not proved'
  end
  if state.trouble then
    words = words .. ', trouble: ' .. text.name(state.trouble, 60)
  end
  return words
end

--- What a status line says of the note in its window, for `%{%v:lua.require'vialshoal'.statusline()%}`: what others
--- wrote is no item of it.
function M.statusline()
  local window = vim.g.statusline_winid
  local shown = window and api.nvim_win_is_valid(window) and api.nvim_win_get_buf(window) or nil
  local note = M.note(shown)
  return note and ('Note:' .. M.state_words(note)):gsub('%%', '%%%%') or ''
end

return M
