--- The commands of a review: what they ask the user, and then the engine.
local api = vim.api
local changed = require('vialshoal.changed')
local history = require('vialshoal.history')
local review = require('vialshoal.review')
local say = require('vialshoal.say')
local Suggesting = require('vialshoal.suggesting')
local text = require('vialshoal.text')

local M = {}

-- Where a stretch is that words are asked for, as others go on writing.
local PLACES = api.nvim_create_namespace('vialshoal_places')
local NONE = 'No remark is here.'
-- What an input that was left gives, and nobody types.
local LEFT = '\1'

-- What the user means.

--- Where the last character of a selection ends.
local function end_of_selection(row, column)
  local line = api.nvim_buf_get_lines(0, row, row + 1, false)[1] or ''
  if vim.o.selection == 'exclusive' then
    return math.min(column, #line)
  end
  local character = line:match('^[^\128-\191][\128-\191]*', column + 1) or ''
  return math.min(column + #character, #line)
end

--- The ends of what a command is about: the selection, where its range is that of one by characters, the lines of its
--- range, or the cursor.
local function ends_of(given)
  if given.range == 0 then
    local cursor = api.nvim_win_get_cursor(0)
    return { cursor[1] - 1, cursor[2] }, { cursor[1] - 1, cursor[2] }
  end
  local from, to = vim.fn.getpos("'<"), vim.fn.getpos("'>")
  if vim.fn.visualmode() ~= 'V' and from[2] == given.line1 and to[2] == given.line2 then
    return { from[2] - 1, from[3] - 1 }, { to[2] - 1, end_of_selection(to[2] - 1, to[3] - 1) }
  end
  local last = api.nvim_buf_get_lines(0, given.line2 - 1, given.line2, false)[1] or ''
  return { given.line1 - 1, 0 }, { given.line2 - 1, #last }
end

--- A stretch of a note's text, by a mark that moves with it.
local function stretch_of(note, given)
  local first, last = ends_of(given)
  local id = api.nvim_buf_set_extmark(note.buffer, PLACES, first[1], first[2],
    { end_row = last[1], end_col = last[2], strict = false })
  return {
    text = table.concat(api.nvim_buf_get_text(note.buffer, first[1], first[2], last[1], last[2], {}), '\n'),
    --- Sends a request of where it is by now, with words that the user wrote.
    say = function(request, words)
      note:flush()
      local mark = api.nvim_buf_is_loaded(note.buffer)
        and api.nvim_buf_get_extmark_by_id(note.buffer, PLACES, id, { details = true }) or {}
      if not mark[1] then
        -- As `:edit` does it.
        return review.keep(note, 'The text was read anew meanwhile.', words)
      end
      api.nvim_buf_del_extmark(note.buffer, PLACES, id)
      request.version = note.version
      request.begin = text.offset(note.lines, mark[1]) + mark[2]
      request['end'] = math.max(request.begin, text.offset(note.lines, mark[3].end_row) + mark[3].end_col)
      review.say(note, request, words)
    end,
  }
end

--- Calls a function with the one of some records that the user means.
local function with_one_of(note, records, words, call)
  if #records == 0 then
    return note.shows.words(words)
  elseif #records == 1 then
    return call(records[1])
  end
  vim.ui.select(records, { prompt = 'Which one?', format_item = function(record) return review.line(record, 60) end },
    function(record)
      if record then
        call(record)
      end
    end)
end

--- Calls a function with the thread at the cursor that is such a one.
local function with_thread(note, words, is_such, call)
  with_one_of(note, vim.tbl_filter(is_such, review.at_cursor(note)), words, call)
end

--- Calls a function with the thread or reply of the user's own at the cursor.
local function with_own(note, call)
  local found = {}
  for _, thread in ipairs(review.at_cursor(note)) do
    for _, record in ipairs(vim.list_extend({ thread }, thread.replies or {})) do
      if record.own and not review.is_taken(record) then
        table.insert(found, record)
      end
    end
  end
  with_one_of(note, found, 'Nothing of yours is here.', call)
end

-- What the user writes.

--- A buffer in which words are written; writing it takes them.
local function write(words, took)
  vim.cmd('belowright new')
  local buffer = api.nvim_get_current_buf()
  for name, value in pairs({ buftype = 'acwrite', bufhidden = 'wipe', swapfile = false, modeline = false }) do
    vim.bo[buffer][name] = value
  end
  api.nvim_buf_set_name(buffer, 'vialshoal-words://' .. buffer)
  api.nvim_buf_set_lines(buffer, 0, -1, false, vim.split(words, '\n', { plain = true }))
  vim.bo[buffer].modified = false
  api.nvim_create_autocmd('BufWriteCmd', { buffer = buffer, callback = function()
    vim.bo[buffer].modified = false
    took(table.concat(api.nvim_buf_get_lines(buffer, 0, -1, false), '\n'))
    vim.schedule(function()
      if api.nvim_buf_is_valid(buffer) then
        api.nvim_buf_delete(buffer, { force = true })
      end
    end)
  end })
end

--- Calls a function with words: those of a command, or what the user makes of some; in a buffer, where the command has
--- a bang, or they have controls: input() would take these for keys.
local function with_words(given, title, words, call)
  local function took(written) call(text.clean(written)) end
  if given.args ~= '' then
    took(given.args)
  elseif given.bang or words:find('%c') then
    write(words, took)
  else
    vim.ui.input({ prompt = title .. ': ', default = words, cancelreturn = LEFT }, function(input)
      -- Neovim 0.7 gives nil for nothing.
      input = input or vim.fn.has('nvim-0.8') == 0 and '' or LEFT
      if input ~= LEFT then
        took(input)
      end
    end)
  end
end

--- The same for a body, which has some words.
local function with_body(note, given, title, words, took)
  with_words(given, title, words, function(body)
    if body:find('%S') then
      took(body)
    else
      note.shows.words('Nothing was written.')
    end
  end)
end

local function nothing() end

-- The commands.

function M.remark(note, given)
  local stretch = stretch_of(note, given)
  with_body(note, given, 'Remark', '', function(body)
    stretch.say({ ['do'] = 'remark', body = body }, body)
  end)
end

function M.suggest(note, given)
  local stretch = stretch_of(note, given)
  with_words(given, 'Suggest', stretch.text, function(new)
    if new == stretch.text then
      return note.shows.words('This is what is there.')
    end
    stretch.say({ ['do'] = 'suggest', new = new }, new)
  end)
end

function M.suggest_mode(note)
  Suggesting.toggle(note)
end

function M.reply(note, given)
  with_thread(note, NONE, function() return true end, function(thread)
    with_body(note, given, 'Reply to ' .. history.author(thread), '', function(body)
      review.say(note, { ['do'] = 'reply', to = thread.id, body = body }, body)
    end)
  end)
end

function M.revise(note, given)
  with_own(note, function(record)
    with_body(note, given, 'Say', record.body or '', function(body)
      review.say(note, { ['do'] = 'revise', to = record.id, body = body }, body)
    end)
  end)
end

function M.withdraw(note)
  with_own(note, function(record) note:ask({ ['do'] = 'withdraw', to = record.id }, nothing) end)
end

function M.resolve(note)
  with_thread(note, 'No open remark is here.', function(thread) return thread.state == 'open' end, function(thread)
    note:ask({ ['do'] = 'resolve', to = thread.id }, nothing)
  end)
end

function M.reopen(note)
  local function is_closed(thread)
    return thread.state == 'resolved' or thread.state == 'rejected'
  end
  with_thread(note, 'No remark is here that could be opened again.', is_closed, function(thread)
    note:ask({ ['do'] = 'reopen', to = thread.id }, nothing)
  end)
end

local function with_suggestion(note, call)
  with_thread(note, 'No open suggestion is here.', function(thread)
    return thread.state == 'open' and thread.kind == 'suggestion'
  end, call)
end

function M.reject(note)
  with_suggestion(note, function(thread) note:ask({ ['do'] = 'reject', to = thread.id }, nothing) end)
end

--- Shows words in a window of their own, in which nothing is obeyed.
local function show(words)
  vim.cmd('belowright new')
  local buffer = api.nvim_get_current_buf()
  for name, value in pairs({ buftype = 'nofile', bufhidden = 'wipe', swapfile = false, modeline = false }) do
    vim.bo[buffer][name] = value
  end
  api.nvim_buf_set_lines(buffer, 0, -1, false, vim.split(words, '\n', { plain = true }))
  vim.bo[buffer].modifiable = false
  vim.keymap.set('n', 'q', '<Cmd>close<CR>', { buffer = buffer, nowait = true })
  return buffer
end

--- Closes the window that compares the texts of a suggestion whose passage has changed. Returns the text that accepting this
--- thread would give, if the window was about this thread.
local function put_away(note, thread)
  local shown = note.shown_changed or {}
  note.shown_changed = nil
  if shown.window and api.nvim_win_is_valid(shown.window) then
    api.nvim_win_close(shown.window, true)
  end
  return shown.id == thread.id and shown.becomes or nil
end

--- Shows how the text of a suggestion has changed, in a window beside: the user may be typing, so nothing is asked.
local function show_changed(note, thread, answer)
  put_away(note, thread)
  local words = ('It was:\n%s\n\nIt is now:\n%s\n\nIt would be:\n%s\n\n:VialshoalAccept! accepts this'):format(
    text.words(answer.was), text.words(answer.now), text.words(answer.becomes))
  local lines, buffer = vim.split(words, '\n', { plain = true }), api.nvim_create_buf(false, true)
  vim.bo[buffer].bufhidden = 'wipe'
  api.nvim_buf_set_lines(buffer, 0, -1, false, lines)
  vim.bo[buffer].modifiable = false
  local width = 1
  for _, line in ipairs(lines) do
    width = math.max(width, vim.fn.strdisplaywidth(line))
  end
  local window = api.nvim_open_win(buffer, false, { relative = 'editor', anchor = 'NE', row = 0,
    col = vim.o.columns, width = math.max(1, math.min(width, vim.o.columns - 2)),
    height = math.max(1, math.min(#lines, vim.o.lines - 4)), style = 'minimal', border = 'single' })
  note.shown_changed = { id = thread.id, becomes = answer.becomes, window = window }
end

--- Accepts a suggestion, by which the passage becomes this text, where one was shown.
local function accept(note, thread, becomes)
  note:ask({ ['do'] = 'accept', to = thread.id, becomes = becomes }, function(answer)
    if answer.error == 'changed' then
      -- Not while lines are taken in.
      vim.schedule(function() show_changed(note, thread, answer) end)
    elseif not answer.error and not answer.done then
      note.shows.words('It was accepted already.')
    end
  end)
end

function M.accept(note, given)
  with_suggestion(note, function(thread)
    if not given.bang then
      return accept(note, thread)
    end
    local becomes = put_away(note, thread)
    if not becomes then
      return note.shows.words('First :VialshoalAccept, which shows what has changed.')
    end
    accept(note, thread, becomes)
  end)
end

--- Shows all that the thread at the cursor says.
function M.read(note)
  with_thread(note, NONE, function() return true end, function(thread) show(review.words(thread)) end)
end

local function go(note, by)
  local found = review.beside_cursor(note, by)
  if not found then
    return note.shows.words('There are no open remarks.')
  end
  vim.cmd("normal! m'")
  api.nvim_win_set_cursor(0, { found.first[1] + 1, found.first[2] })
  say.passing(review.line(found.thread, vim.o.columns))
end

function M.next(note, given)
  go(note, math.max(1, given.count))
end

function M.previous(note, given)
  go(note, -math.max(1, given.count))
end

--- Threads as Vim lists errors; the id of each is beside, since one whose text isn't here has no place.
local function as_list(note, threads)
  local position, items, ids = text.positions(note.lines), {}, {}
  for _, thread in ipairs(threads) do
    local item = { bufnr = note.buffer, valid = 0 }
    if thread.begin then
      local row, column = position(thread.begin)
      item.lnum, item.col, item.valid = row + 1, column + 1, 1
    end
    item.text = (thread.state == 'open' and '' or ('(%s) '):format(text.line(thread.state, 10))) .. review.line(thread, 200)
    table.insert(items, item)
    table.insert(ids, thread.id)
  end
  return { title = 'Remarks of ' .. (note.name or ''), items = items, context = { vialshoal = { buffer = note.buffer, ids = ids } } }
end

--- Calls a function with the list of open threads, or of all; where an author is given, of those alone that this one began.
local function with_list(note, given, call)
  review.ask_for_all(note, function(threads)
    local listed = vim.tbl_filter(function(thread)
      return (given.bang or thread.state == 'open') and (given.args == '' or given.args == history.author(thread))
    end, threads)
    note.review.listed = listed
    call(as_list(note, listed))
  end)
end

--- Has the list of a note, where that is shown, have what is so now.
local function list_anew(note, given)
  local shown = vim.fn.getqflist({ context = 0, winid = 0 })
  local context = type(shown.context) == 'table' and shown.context.vialshoal
  if not context or context.buffer ~= note.buffer or shown.winid == 0 then
    note.review.lists_anew = nil
    return
  end
  with_list(note, given, function(list)
    local now = vim.fn.getqflist({ context = 0, winid = 0 })
    if vim.deep_equal(now.context, shown.context) and now.winid ~= 0 then
      local cursor = api.nvim_win_get_cursor(now.winid)
      local line = math.max(1, math.min(cursor[1], #list.items))
      for number, id in ipairs(list.context.vialshoal.ids) do
        line = id == context.ids[cursor[1]] and number or line
      end
      vim.fn.setqflist({}, 'r', list)
      api.nvim_win_set_cursor(now.winid, { line, cursor[2] })
    end
  end)
end

--- Lists open threads, or all, as Vim lists errors.
function M.list(note, given)
  with_list(note, given, function(list)
    vim.fn.setqflist({}, ' ', list)
    if #list.items == 0 then
      note.shows.words('There are no remarks.')
    else
      vim.cmd('copen')
    end
    note.review.lists_anew = function() list_anew(note, given) end
  end)
end

--- What can be done in a list, with the thread of its line.
M.of_threads = { reply = true, revise = true, withdraw = true, resolve = true, reopen = true, accept = true, reject = true,
  read = true, list = true }

function M.changed(note, given)
  if given.bang then
    return changed.clear(note)
  end
  local hours = tonumber(given.args)
  if given.args ~= '' and not hours then
    return note.shows.words('That is no number of hours.')
  end
  changed.open(note, hours)
end

return M
