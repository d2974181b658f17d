--- Remarks and suggestions, as extmarks at the text that they are about, with their words behind the line.
local api = vim.api
local history = require('vialshoal.history')
local text = require('vialshoal.text')

local M = {}

local SPACE = api.nvim_create_namespace('vialshoal_review')
-- Threads are asked for again after so many seconds at the earliest.
local PAUSE_SECONDS = 0.3
-- So many cells has what is said behind a line.
local MOST_CELLS = 60
local GROUPS = { VialshoalRemark = 'DiffChange', VialshoalSuggestion = 'DiffDelete', VialshoalSuggested = 'DiffAdd',
  VialshoalWords = 'Comment', VialshoalCame = 'DiffAdd', VialshoalWent = 'DiffDelete' }

--- Gives highlights to what is shown, where the user hasn't. A colour scheme takes them away.
function M.set_highlights()
  for name, link in pairs(GROUPS) do
    api.nvim_set_hl(0, name, { default = true, link = link })
  end
end

-- What others say.

--- Whether a thread or a reply was taken back.
function M.is_taken(record)
  return record.taken or record.state == 'taken'
end

--- What a thread or a reply says, behind who says it.
local function body(record, shown)
  local words = M.is_taken(record) and 'taken back' or shown(record.body)
  return words == '' and '' or ': ' .. words
end

--- What a thread says and suggests, in a line of so many cells.
function M.line(thread, most)
  local function shown(words) return text.line(words, most) end
  local new = thread.kind == 'suggestion' and (' -> "%s"'):format(shown(thread.new)) or ''
  local count = #(thread.replies or {})
  return shown(history.author(thread) .. new .. body(thread, shown) .. (count > 0 and (' (%d)'):format(count) or ''))
end

local function about(thread)
  local old, new = text.words(thread.text), text.words(thread.new)
  if thread.kind ~= 'suggestion' then
    return old == '' and 'Here' or ('On "%s"'):format(old)
  elseif old == '' then
    return ('Suggests to add "%s"'):format(new)
  end
  return new == '' and ('Suggests to delete "%s"'):format(old) or ('Suggests "%s" for "%s"'):format(new, old)
end

local function said(record)
  -- A time is what its author says it is.
  local is_told, time = pcall(os.date, ', %Y-%m-%d %H:%M', record.time)
  local when = type(record.time) == 'number' and is_told and time or ''
  return history.author(record) .. when .. (record.revised and ' (revised)' or '') .. body(record, text.words)
end

--- All that a thread says.
function M.words(thread)
  local now = thread.elsewhere and " (its text isn't here)" or thread.gone and ' (deleted since)'
    or thread.changed and ' (changed since)' or ''
  local state = thread.state == 'open' and '' or (' (%s)'):format(text.line(thread.state, 10))
  local found = { about(thread) .. now .. state, said(thread) }
  for _, reply in ipairs(thread.replies or {}) do
    table.insert(found, '  ' .. said(reply))
  end
  return table.concat(found, '\n')
end

-- Answers with places.

--- Whether all that was typed is answered, and no command holds places.
local function is_quiet(note)
  return #note.changes == 0 and not note.is_unsure and not note.is_lost and note.made == note.answered and not note:is_held()
end

--- Whether the places of an answer are places in the text that is here.
local function is_current(note, answer)
  return answer.edits == note.made and #note.changes == 0 and not note.is_unsure and not note.is_lost
end

--- Asks for what has places, once nobody types, and again until these are places in the text that is here.
function M.ask(note, request, took)
  local opening = note.review
  local function again()
    vim.defer_fn(function()
      if note.review == opening and note.is_open then
        M.ask(note, request, took)
      end
    end, PAUSE_SECONDS * 1000)
  end
  if note.is_open and not is_quiet(note) then
    return again()
  end
  request.version = note.version
  note:ask(request, function(answer)
    if answer.error then
      return
    elseif is_current(note, answer) then
      took(answer)
    else
      again()
    end
  end)
end

--- Asks for all threads of a note, which have so many in a line of the engine's.
function M.ask_for_all(note, took, known)
  known = known or {}
  M.ask(note, { ['do'] = 'remarks', from = #known }, function(answer)
    vim.list_extend(known, answer.threads)
    if #answer.threads > 0 and #known < answer.of then
      M.ask_for_all(note, took, known)
    else
      took(known)
    end
  end)
end

-- What the user wrote.

--- Keeps words that weren't taken, and says so behind others.
function M.keep(note, why, words)
  if words:find('%S') then
    vim.fn.setreg('"', words)
    why = why .. ' What you wrote is in the unnamed register.'
  end
  note.shows.words(why)
end

--- Sends one of what isn't answered.
local function ask(note, one)
  note:ask(one.request, function(answer)
    note.unanswered = vim.tbl_filter(function(other) return other ~= one end, note.unanswered)
    if answer.error then
      M.keep(note, answer.words, one.words)
    elseif one.took then
      one.took(answer)
    end
  end)
end

--- Sends a request that has words which the user wrote, and calls a function, if there is one, with its answer. What is
--- refused isn't lost.
function M.say(note, request, words, took)
  if not note.is_open then
    return M.keep(note, "This note isn't open.", words)
  end
  note.once = (note.once or 0) + 1
  request.once = note.once
  local one = { request = request, words = words, took = took }
  table.insert(note.unanswered, one)
  ask(note, one)
end

--- Asks the next engine for what the last one didn't answer, by the same numbers.
function M.opened_again(note)
  for _, one in ipairs(vim.list_slice(note.unanswered)) do
    if one.request.begin then
      one.request.version = note.version
    end
    ask(note, one)
  end
end

--- Keeps the words that no engine has answered, since nobody knows their places any more.
function M.keep_unanswered(note)
  local words = vim.tbl_map(function(one) return one.words end, note.unanswered)
  note.unanswered = {}
  if #words > 0 then
    M.keep(note, "The engine didn't answer.", table.concat(words, '\n\n'))
  end
end

--- Shows no threads, as the engine has ended. The next one is asked for what it didn't answer.
function M.ended(note)
  M.clear(note)
  if not note.is_away then
    M.keep_unanswered(note)
  end
end

-- What is shown in the text.

--- Marks what of a note's text a thread is about. One that isn't open is there to be found, and isn't seen.
local function mark(note, thread, position)
  local begin, ending = thread.begin, thread['end'] or thread.begin
  local row, column = position(begin)
  local last_row, last_column = position(ending)
  local options = { end_row = last_row, end_col = last_column, right_gravity = begin < ending, end_right_gravity = false,
    strict = false }
  if thread.state == 'open' then
    local is_new = thread.kind == 'suggestion'
    options.hl_group = is_new and 'VialshoalSuggestion' or 'VialshoalRemark'
    options.virt_text = { { ' ' .. M.line(thread, MOST_CELLS), is_new and 'VialshoalSuggested' or 'VialshoalWords' } }
    options.virt_text_pos = 'eol'
  end
  return api.nvim_buf_set_extmark(note.buffer, SPACE, row, column, options)
end

--- Shows threads in a note's text, and no more those that were shown.
local function show(note, threads)
  M.set_highlights()
  M.clear(note)
  local position = text.positions(note.lines)
  for _, thread in ipairs(threads) do
    if thread.begin then
      note.review.threads[mark(note, thread, position)] = thread
    end
  end
end

--- Shows no threads.
function M.clear(note)
  note.review.threads = {}
  if api.nvim_buf_is_valid(note.buffer) then
    api.nvim_buf_clear_namespace(note.buffer, SPACE, 0, -1)
  end
end

local function ask_for_threads(note, is_open)
  local review = note.review
  review.is_due, review.is_asking = false, true
  note:ask({ ['do'] = 'remarks', version = note.version, open = is_open }, function(answer)
    review.is_asking = false
    if answer.error then
      return
    elseif not is_current(note, answer) then
      M.noticed(note)
    elseif not is_open and answer.of > #answer.threads then
      -- Where there are too many, those that are open are shown.
      ask_for_threads(note, true)
    else
      show(note, answer.threads)
      if review.lists_anew then
        review.lists_anew()
      end
    end
  end)
end

local function soon(note)
  local review = note.review
  if review.waits then
    return
  end
  review.waits = true
  local seconds = review.asked and math.max(0, review.asked + PAUSE_SECONDS - note.clock()) or 0
  vim.defer_fn(function()
    review.waits = false
    if note.review == review then
      M.look(note)
    end
  end, math.ceil(seconds * 1000))
end

--- Asks for the threads, where those that are shown may be old, unless the user is typing.
function M.look(note)
  local review = note.review
  if not note.is_open or not review.is_due or not api.nvim_buf_is_loaded(note.buffer) then
    return
  end
  review.asked = note.clock()
  if review.is_asking or not is_quiet(note) then
    soon(note)
  else
    ask_for_threads(note)
  end
end

--- Shows the threads anew, as the engine says that they have changed.
function M.noticed(note)
  note.review.is_due = true
  soon(note)
end

-- Which threads are meant.

--- The threads that are shown: each with the ends of its text, in their order.
function M.shown(note)
  local found = {}
  for _, each in ipairs(api.nvim_buf_get_extmarks(note.buffer, SPACE, 0, -1, { details = true })) do
    local thread = note.review.threads[each[1]]
    if thread then
      local last = { each[4].end_row or each[2], each[4].end_col or each[3] }
      table.insert(found, { thread = thread, first = { each[2], each[3] }, last = last })
    end
  end
  return found
end

local function is_before(one, other)
  return one[1] < other[1] or one[1] == other[1] and one[2] < other[2]
end

--- What the list in the current window has, where that lists threads: the note's buffer, and their ids, line by line.
function M.listed_here()
  local window = vim.fn.getwininfo(api.nvim_get_current_win())[1]
  local context = window.quickfix == 1 and window.loclist == 0 and vim.fn.getqflist({ context = 0 }).context
  return type(context) == 'table' and context.vialshoal or nil
end

--- The threads at the cursor, or else those of its line, whose words are behind it; in a list, that of the line.
function M.at_cursor(note)
  local listed = M.listed_here()
  if listed then
    local id = listed.ids[api.nvim_win_get_cursor(0)[1]]
    return vim.tbl_filter(function(thread) return thread.id == id end, note.review.listed or {})
  end
  local cursor = api.nvim_win_get_cursor(0)
  local place = { cursor[1] - 1, cursor[2] }
  local found, of_line = {}, {}
  for _, each in ipairs(M.shown(note)) do
    if not is_before(place, each.first) and not is_before(each.last, place) then
      table.insert(found, each.thread)
    end
    if each.first[1] == place[1] then
      table.insert(of_line, each.thread)
    end
  end
  return #found > 0 and found or of_line
end

--- The open thread that is so many further on than the cursor, or further back where `by` is negative; behind the last
--- one comes the first.
function M.beside_cursor(note, by)
  local cursor = api.nvim_win_get_cursor(0)
  local place, ahead, rest = { cursor[1] - 1, cursor[2] }, {}, {}
  for _, each in ipairs(M.shown(note)) do
    if each.thread.state == 'open' then
      if by > 0 then
        table.insert(is_before(place, each.first) and ahead or rest, each)
      else
        table.insert(is_before(each.first, place) and ahead or rest, 1, each)
      end
    end
  end
  local found = vim.list_extend(ahead, rest)
  return found[(math.abs(by) - 1) % #found + 1]
end

return M
