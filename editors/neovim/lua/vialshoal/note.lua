--- A note in a buffer: its text as the engine knows it, and what an editor does with which lines.
---
--- docs/ENGINE.md has the lines. Positions are bytes, as in Neovim's own API.
---
--- Vim shows no empty line behind a file's last line end. So a text that ends with one is shown without it, and
--- `has_end` and the option 'endofline' say that it is there; with 'nofixendofline' none is added to a text that has
--- none. One that is typed here is shown as an empty line, until others change the end.
local api = vim.api
local again = require('vialshoal.again')
local interrupt = require('vialshoal.interrupt')
local review = require('vialshoal.review')
local text = require('vialshoal.text')

local Note = {}
Note.__index = Note

-- With so many edits unanswered, changes are gathered.
local MOST_UNANSWERED = 10
-- An edit has so many bytes of text at most, so that its line isn't too long.
local MOST_TEXT = 1000000
local BUSY_SECONDS, PATIENCE_SECONDS = 0.5, 0.2
-- An editor that only reads says after so many notices what it has seen.
local SEEN = 100
-- The requests that the user hasn't to repeat if the engine ends.
local NOT_REPEATED = { remarks = true, remark = true, suggest = true, reply = true, revise = true }
local CURSOR_SECONDS, LOST_SECONDS = 0.05, 0.1
-- The modes in which a command holds places as numbers: an operator waits for its motion, a command line is typed, a
-- prompt as that of `:s///c` waits, an insertion is completed.
local HOLDING = { '^no', '^c', '^r', '^[iR]c' }

--- A note that is not open yet. `send` sends a line, `clock` says the time in seconds, and `shows` has functions for
--- what is to be shown: `words`, `cursors`, `remarks`, `state`, `beside` for a text that has to give way.
function Note.new(buffer, send, clock, shows)
  return setmetatable({
    buffer = buffer, send = send, clock = clock, shows = shows,
    is_open = false, version = 0, made = 0, answered = 0, sent_edits = 0, since = 0, lines = { '' }, has_end = false,
    -- Whether the engine ended that had the note open, and none has opened it again. The user types on meanwhile.
    is_away = false,
    -- The version and the edits at which this editor was last in step: it had exactly the engine's text. And the edits that
    -- were made since then or aren't answered, in their order: number, changes, how they join, and where the first change is.
    step = { version = 0, edits = 0 }, edits = {},
    changes = {}, state = {}, cursors = {}, waiting = {}, requests = {}, asked = 0, seen = 0, place_sent = 0,
    review = { threads = {} },
    -- What the user said in the margin and no engine has answered: the request, its words, and what is called with the answer.
    unanswered = {},
    -- What of the changes is undone together, by their numbers.
    unit_of = setmetatable({}, { __mode = 'k' }),
  }, Note)
end

--- Takes in the answer to `open`, and shows the text, unless that is here.
function Note:opened(line)
  local was_away, missing = self.is_away, self:edits_after(math.max(self.answered, line.has or 0))
  self.version, self.answered, self.sent_edits = line.version, line.edits, line.edits
  self.step = { version = line.version, edits = line.edits }
  self.place, self.is_away, self.is_open = nil, false, true
  self.told_version, self.remarks, self.review = nil, nil, { threads = {} }
  if self.suggesting then
    self.suggesting:soon()
  end
  if was_away and not line.text then
    self:carried_over()
    review.opened_again(self)
  else
    self.made, self.changes, self.edits = line.edits, {}, {}
    self:show_opened(line.text)
    if was_away then
      again.keep(self, "The note is open again, and what you typed last couldn't be carried over.", missing)
      review.keep_unanswered(self)
    end
  end
end

--- Goes on with the text that is here, as another engine has the edits that it was told.
function Note:carried_over()
  self:forget_edits()
  self:show_modified()
  self.shows.words('The note is open again. All that you typed is kept.')
  self:send_edits()
end

--- Shows the text of a note that was opened.
function Note:show_opened(new)
  if self.is_lost then
    self:look()
    self.is_lost = false
  end
  if self:size() == 0 then
    self:fill(new)
  else
    self:become(new)
  end
end

--- Has the user type on, as the engine ended. What it was asked is dropped, except what was said in the margin; whether the user
--- asked something that was dropped.
function Note:engine_ended()
  local was_asked = false
  for id in pairs(self.waiting) do
    was_asked = was_asked or self.requests[id] ~= nil and not NOT_REPEATED[self.requests[id]]
  end
  self.is_away, self.is_open, self.waiting, self.requests = true, false, {}, {}
  return was_asked
end

--- Whether what the user types counts as edits.
function Note:takes_keys()
  return self.is_open or self.is_away
end

-- Edits.

--- Takes note of a change that the user, or a plug-in, made: lines `first` to `last` gave way to those up to
--- `new_last`.
function Note:changed(first, last, new_last)
  if self.applies or self.is_lost or not self:takes_keys() then
    return
  end
  if self.suggesting then
    self.is_unsure = true
    return self:soon()
  end
  local count = api.nvim_buf_line_count(self.buffer)
  if count == 1 and new_last == first then
    -- Vim tells of no line where one empty line is left.
    new_last = last + count - #self.lines
  end
  if self.is_unsure or new_last - last ~= count - #self.lines or new_last < first then
    -- The buffer was changed further before this was told.
    self.is_unsure = true
    return self:soon()
  end
  self:gather(first, last, new_last)
  self:soon()
end

--- Takes note of where a change is said to begin, and how many bytes it took away and brought. That is more exact than
--- what lines show, but not always right; so it is a hint. Mostly it comes before the lines do.
function Note:hinted(row, column, gone, came)
  local late = self.late
  self.late = nil
  if self.applies or self.is_lost then
    return
  elseif late and late == self.changes[#self.changes] and gone == 0 and came == #late[3] then
    local place = text.offset(self.lines, row) + column
    late[1], late[3] = text.moved_up(self.lines, row, column, late[1] - place, late[3], late[1])
    late[2] = late[1]
  else
    self.hints = self.hints or {}
    self.hints[row] = math.min(self.hints[row] or column, column)
  end
end

--- What differs in lines, as changes; the first of these lines, and what they are and were.
function Note:differences(first, last, new_last)
  local is_last = not self.has_end and last == #self.lines
  if is_last and first > 0 and new_last ~= last then
    -- The line end before them has come or gone, too.
    first = first - 1
  end
  local new = api.nvim_buf_get_lines(self.buffer, first, new_last, false)
  local old = vim.list_slice(self.lines, first + 1, last)
  local hints = {}
  for row, column in pairs(self.hints or {}) do
    hints[row - first] = column
  end
  self.hints, self.late = nil, nil
  return text.changes(old, new, text.offset(self.lines, first), is_last, hints), first, new, old
end

--- Gathers what differs in lines.
function Note:gather(first, last, new_last)
  local is_told = self.hints ~= nil
  local found, begin, new, old = self:differences(first, last, new_last)
  for _, change in ipairs(found) do
    if text.clean(change[3]) ~= change[3] then
      self.is_unsure = true
      return
    end
  end
  found = self:joined(found, old, text.offset(self.lines, begin)) or found
  text.splice(self.lines, begin, last, new)
  for _, change in ipairs(found) do
    self:add(change)
  end
  if not is_told and #found == 1 and found[1][1] == found[1][2] and #found[1][3] <= MOST_TEXT then
    -- Where a line end came in is told behind its lines.
    self.late = self.changes[#self.changes]
  end
end

--- What stands for the last change that was gathered and the one that was found in `old` lines, if they join lines.
function Note:joined(found, old, base)
  local before, change = self.changes[#self.changes], found[1]
  if not before or #found ~= 1 or self.unit_of[before] ~= self.unit then
    return nil
  end
  local gone = (table.concat(old, '\n') .. '\n'):sub(change[1] - base + 1, change[2] - base)
  local joined = text.joined(before, change, gone, base)
  if joined then
    table.remove(self.changes)
  end
  return joined
end

--- Adds a change to those that are gathered, in parts where its text is long.
function Note:add(change)
  local from, to, new = change[1], change[2], change[3]
  local begin = 1
  repeat
    local last = math.min(begin + MOST_TEXT - 1, #new)
    while last < #new and new:byte(last + 1) >= 0x80 and new:byte(last + 1) < 0xc0 do
      last = last - 1
    end
    table.insert(self.changes, { from, to, new:sub(begin, last) })
    self:move_kept(self.changes[#self.changes])
    self.unit_of[self.changes[#self.changes]] = self.unit
    from = from + last - begin + 1
    to, begin = from, last + 1
  until begin > #new
end

--- Has the buffer be what is known again; what differed, as changes of that, and what each took away.
function Note:put_back()
  local lines = api.nvim_buf_get_lines(self.buffer, 0, -1, false)
  local first, last, new_last = text.differing(self.lines, lines)
  local row = text.least(self.hints or {})
  if row then
    -- A line end that was typed at a line's end differs from there on.
    first = math.min(first, row)
    self.hints = #lines == #self.lines and self.hints or { [row] = self.hints[row] }
  end
  local known = text.join(self.lines, self.has_end)
  local found, begin, _, old = self:differences(first, last, new_last)
  local has_end = vim.bo[self.buffer].endofline
  if has_end ~= self.has_end then
    table.insert(found, has_end and { #known, #known, '\n' } or { #known - 1, #known, '' })
  end
  self:apply(function()
    api.nvim_buf_set_lines(self.buffer, begin, new_last, false, old)
    vim.bo[self.buffer].endofline = self.has_end
  end)
  self.is_unsure = false
  self:show_modified()
  local grown = 0
  return vim.tbl_map(function(change)
    local from, to, new = change[1] - grown, change[2] - grown, text.clean(change[3])
    grown = grown + #change[3] - (to - from)
    return { { from, to, new }, known:sub(from + 1, to) }
  end, found)
end

--- Gathers what has changed although nobody told, and shows U+FFFD for what is no character, as all others do.
function Note:find_changes()
  if not self.is_unsure and api.nvim_buf_line_count(self.buffer) == #self.lines then
    return
  elseif self.suggesting then
    return self.suggesting:take()
  end
  -- Until all of it is known.
  self.is_unsure, self.hints = true, nil
  local lines = api.nvim_buf_get_lines(self.buffer, 0, -1, false)
  self:apply(function()
    for number, line in ipairs(lines) do
      local clean = text.clean(line)
      if clean ~= line then
        api.nvim_buf_set_lines(self.buffer, number - 1, number, false, { clean })
      end
    end
  end)
  self.is_unsure = false
  self:gather(0, #self.lines, #lines)
end

--- Takes note that the hidden line end came or went, by the option 'endofline'.
function Note:end_changed(has_end)
  if not self:takes_keys() or has_end == self.has_end then
    return
  elseif self.suggesting then
    self.is_unsure = true
    self:soon()
  else
    interrupt.behind(self.find_changes, self)
    local size = self:size()
    self.has_end = has_end
    self:add(has_end and { size, size, '\n' } or { size, size + 1, '' })
    self:soon()
  end
end

--- Sends what a command has changed, unless many edits are unanswered: then it goes with what follows.
function Note:flush_command()
  if not self.suggesting then
    -- What was told behind its lines is no hint for the next ones.
    self.hints, self.late = nil, nil
  end
  if self.made - self.answered < MOST_UNANSWERED then
    self:flush()
  end
end

--- Sends what was gathered as one edit; in parts where that is much. While there is no engine it is numbered, and sent later.
function Note:flush()
  if self:takes_keys() and not self.is_lost then
    interrupt.behind(self.find_changes, self)
    self:send_changes()
  end
end

--- Changes in lists that are an edit each. Positions make lines long, too, where there are many changes.
local function in_edits(changes, unit_of)
  local edits, size, unit = { {} }, 0, unit_of[changes[1]]
  for _, change in ipairs(changes) do
    local more = 20 + #change[3]
    if size > 0 and (size + more > MOST_TEXT or unit_of[change] ~= unit) then
      table.insert(edits, {})
      size = 0
    end
    table.insert(edits[#edits], change)
    size, unit = size + more, unit_of[change]
  end
  return edits
end

--- Has what is changed from now on be undone apart from what was.
function Note:begin_unit()
  self.unit = (self.unit or 0) + 1
end

--- Whether an edit, the first of those that are sent at once or not, is undone with the one before it; nil where the
--- engine is to find that out, since nobody has typed a key.
function Note:joins(edit, is_first)
  local unit = self.unit_of[edit[1]]
  if not unit then
    return not is_first or nil
  end
  local joins = unit == self.sent_unit
  self.sent_unit = unit
  return joins
end

--- Sends what was gathered, whatever the buffer has by now.
function Note:send_changes()
  if #self.changes == 0 then
    return
  end
  local edits = in_edits(self.changes, self.unit_of)
  if self.answered == self.made then
    self.since = self.clock()
  end
  self.changes, self.seen = {}, 0
  for number, edit in ipairs(edits) do
    self.made = self.made + 1
    table.insert(self.edits, { number = self.made, changes = edit, join = self:joins(edit, number == 1), place = edit[1][1] })
  end
  self:send_edits()
end

--- Sends the edits that this engine hasn't, in the order of their numbers.
function Note:send_edits()
  if not self.is_open then
    return
  end
  for _, edit in ipairs(self:edits_after(self.sent_edits)) do
    self.sent_edits = edit.number
    self.send({ ['do'] = 'edit', version = self.version, edits = edit.number, changes = edit.changes, join = edit.join })
  end
end

--- The edits that are kept and come behind a number, in their order.
function Note:edits_after(number)
  local first = self.edits[1] and math.max(1, number - self.edits[1].number + 2) or 1
  return vim.list_slice(self.edits, first)
end

--- Forgets the edits that are answered and came before the last step.
function Note:forget_edits()
  self.edits = self:edits_after(math.min(self.answered, self.step.edits))
end

--- Takes note that this editor has exactly the engine's text.
function Note:is_in_step()
  self.step = { version = self.version, edits = self.made }
  self:forget_edits()
end

--- Moves the places of what is kept along with a change.
function Note:move_kept(change)
  for _, edit in ipairs(self.edits) do
    edit.place = text.moved(edit.place, change, false)
  end
  if self.refused then
    self.refused.place = text.moved(self.refused.place, change, false)
  end
  for _, one in ipairs(self.unanswered) do
    local request = one.request
    if request.begin then
      local is_place = request.begin == request['end']
      request.begin = text.moved(request.begin, change, not is_place)
      request['end'] = math.max(request.begin, text.moved(request['end'], change, false))
    end
  end
end

--- Sends soon what was gathered, when what changes the text has ended.
function Note:soon()
  if not self.is_due then
    self.is_due = true
    vim.schedule(function()
      self.is_due = false
      if api.nvim_buf_is_valid(self.buffer) then
        self:flush_command()
      end
    end)
  end
end

-- Who types without a pause.

--- Whether lines are to be read before a key is taken. Only a macro types for half a second without all answered.
function Note:is_behind()
  return self.is_open and self.answered < self.made and self.clock() > self.since + BUSY_SECONDS
end

--- Has the half second begin anew.
function Note:caught_up()
  self.since = self.clock()
end

--- Lets others' text in before a key, where it was held back too long.
function Note:before_key()
  if not self:takes_keys() then
    return
  end
  self:flush_command()
  if self:is_behind() and not self:is_held() then
    local _, why = vim.wait(PATIENCE_SECONDS * 1000, function() return self.answered == self.made end, 2)
    self:caught_up()
    if why == -2 then
      interrupt.press()
    end
  end
  if self.suggesting then
    self.suggesting:before_key()
  end
  -- As Vim's own undo would: a key that is typed in normal mode begins anew, one of a macro or an insertion doesn't.
  if vim.fn.undotree().synced == 1 and not self:is_held() then
    self:begin_unit()
  end
end

-- Commands that hold places as numbers.

--- Takes note of a mode. What is typed in a block is put into its other lines as that ends, by their numbers.
function Note:mode_changed(old, new)
  self.in_block = old == '\22' and new:find('^[iR]') ~= nil or self.in_block and new ~= 'n'
end

--- Whether a command holds places of this note: what is typed in a block, or a command by its mode.
function Note:is_held()
  if api.nvim_get_current_buf() ~= self.buffer then
    return false
  end
  local mode, holds = api.nvim_get_mode().mode, self.in_block or false
  for _, each in ipairs(HOLDING) do
    holds = holds or mode:find(each) ~= nil
  end
  return holds
end

--- Takes in a line ahead of those that wait, if it leaves the text as it is: it answers an edit, or carries edits over to
--- another engine. So what a command does is sent while it goes on.
function Note:take_ahead(line)
  if (line:find('^{"answer":"edit"') or line:find('^{"answer":"open"')) and self:is_held() then
    local answer = vim.json.decode(line, { luanil = { object = true } })
    if not answer.error and not answer.text then
      self:answer(answer)
      return true
    end
  end
  return false
end

--- Tells the engine which version is here where many lines wait: it keeps what carries edits over from there.
function Note:tell_version(waiting)
  if waiting >= SEEN and self.told_version ~= self.version then
    self.told_version = self.version
    self.send({ ['do'] = 'seen', version = self.version })
  end
end

-- Lines.

--- Sends a request, and calls `answered` with its answer.
function Note:ask(request, answered)
  if self.is_away then
    return self.shows.words('This was not done, because the engine is being started again. Nothing is lost; repeat it in a moment.')
  elseif not self.is_open then
    return self.shows.words("This note isn't open.")
  end
  self:flush()
  self.asked = self.asked + 1
  self.waiting[self.asked], self.requests[self.asked] = answered, request['do']
  request.id = self.asked
  self.send(request)
end

--- Takes note that it isn't sure what the buffer has, since a change was broken off, and asks for the whole text; not
--- at once, as what broke it off may still be there.
function Note:lost()
  self.is_lost, self.changes = true, {}
  vim.defer_fn(function()
    self.send({ ['do'] = 'text', edits = self.made })
  end, LOST_SECONDS * 1000)
end

--- Takes in a line of the engine's.
function Note:take(line)
  interrupt.behind(function()
    self:flush()
    if line.notice then
      self:noticed(line)
    elseif line.answer then
      self:answer(line)
    end
  end)
end

function Note:answer(line)
  local edits = line.answer == 'edit' and line.edits
  if line.error then
    self:failed(line, edits)
  end
  if edits then
    self:answered_up_to(line, edits)
  end
  local answered = line.id and self.waiting[line.id]
  if answered then
    self.waiting[line.id], self.requests[line.id] = nil, nil
    answered(line)
  end
end

--- Says an error. If it is one to edits, their words are kept.
function Note:failed(line, edits)
  if edits then
    again.keep(self, line.words, vim.tbl_filter(function(edit) return edit.number <= edits end, self:edits_after(self.answered)))
  elseif not self.is_away or line.words ~= self.told_why then
    -- An engine that can't open the note is started again and again, and that is said once.
    self.told_why = self.is_away and line.words or nil
    self.shows.words(line.words .. (self.beside and ' ' .. self.beside or ''))
  end
  if not line.edits and not line.id then
    self.send({ ['do'] = 'text', edits = self.made })
  end
end

--- Takes note that all edits up to a number are answered.
function Note:answered_up_to(line, edits)
  self.answered = edits
  if not line.error then
    self.beside = nil
    if edits == self.made and line.version == self.version then
      self.step = { version = self.version, edits = edits }
    end
  end
  self:forget_edits()
  if self.answered == self.made then
    self:show_modified()
  end
end

--- Has 'modified' say whether something would be lost with the buffer: what isn't answered, or words that weren't taken.
function Note:show_modified()
  vim.bo[self.buffer].modified = self.made ~= self.answered or self.refused ~= nil
end

function Note:noticed(line)
  if line.notice == 'state' or line.notice == 'opening' then
    self.state = line
    self.shows.state(line)
  elseif line.notice == 'remarks' then
    self.remarks = line
    self.shows.remarks()
  elseif line.notice == 'says' then
    self.shows.words(line.words)
  elseif line.edits ~= self.made then
    return
  elseif line.notice == 'cursors' then
    self.cursors = line.cursors
    self.shows.cursors(line.cursors)
  elseif line.notice == 'changes' or line.notice == 'text' then
    self:take_text(line)
  end
end

--- Shows the text that a notice says.
function Note:take_text(line)
  if self.is_lost and line.notice ~= 'text' then
    return
  end
  self.version = line.version
  if self.is_lost then
    self:look()
    self.is_lost = false
    self:become(line.text)
  elseif line.notice == 'text' then
    self:become(line.text)
  else
    self:change(line.changes)
  end
  self:is_in_step()
  if line.cursor then
    self:go_to(line.cursor)
  end
  self.seen = self.seen + 1
  if self.seen >= SEEN then
    self.seen = 0
    self.send({ ['do'] = 'seen', version = self.version })
  end
end

-- What the text becomes.

--- Changes the buffer as the engine says: that is no edit.
function Note:apply(body)
  local options = vim.bo[self.buffer]
  local modifiable, modified = options.modifiable, options.modified
  self.applies = true
  local is_done, why = pcall(function()
    options.modifiable = true
    body()
  end)
  self.applies = false
  options.modifiable, options.modified = modifiable, modified
  if not is_done then
    error(why, 0)
  end
end

--- Makes changes of the engine's. Cursors and what windows show stay with their characters.
function Note:change(changes)
  local kept = self:kept_places()
  self:apply(function()
    for _, change in ipairs(changes) do
      self:move_places(kept, change)
      self:move_kept(change)
      if self.suggesting then
        self.suggesting:follow(change)
      end
      self:replace(change[1], change[2], change[3])
    end
    self:hide_end(kept)
  end)
  self:restore_places(kept)
  if self.suggesting then
    self.suggesting:draw()
  end
end

--- Has a text be in the place of what is between two places.
function Note:replace(from, to, new)
  if self.has_end and to > self:size() then
    self:show_end()
  end
  local row, column = text.position(self.lines, from)
  local last_row, last_column = text.position(self.lines, to)
  local lines = vim.split(new, '\n', { plain = true })
  if row ~= last_row then
    -- Neovim 0.7 would read memory that it has freed where the first line was just changed and no other one was read since.
    api.nvim_buf_get_lines(self.buffer, last_row, last_row + 1, true)
  end
  api.nvim_buf_set_text(self.buffer, row, column, last_row, last_column, lines)
  lines[#lines] = lines[#lines] .. self.lines[last_row + 1]:sub(last_column + 1)
  lines[1] = self.lines[row + 1]:sub(1, column) .. lines[1]
  text.splice(self.lines, row, last_row + 1, lines)
end

--- How many bytes the text has, without the line end that is hidden.
function Note:size()
  return text.offset(self.lines, #self.lines) - 1
end

--- Shows the line end behind the last line, as an empty line.
function Note:show_end()
  api.nvim_buf_set_lines(self.buffer, #self.lines, #self.lines, false, { '' })
  table.insert(self.lines, '')
  self:set_end(false)
end

--- Hides it, where no cursor is there.
function Note:hide_end(kept)
  local last = #self.lines
  if last == 1 or self.lines[last] ~= '' or self.has_end then
    return
  end
  local begin = text.offset(self.lines, last - 1)
  for _, window in ipairs(kept) do
    if window.places.cursor >= begin then
      return
    end
  end
  api.nvim_buf_set_lines(self.buffer, last - 1, last, false, {})
  table.remove(self.lines)
  self:set_end(true)
end

function Note:set_end(has_end)
  self.has_end = has_end
  vim.bo[self.buffer].endofline = has_end
end

--- Looks what the buffer has.
function Note:look()
  self.is_unsure, self.hints, self.late = false, nil, nil
  self.lines = api.nvim_buf_get_lines(self.buffer, 0, -1, false)
  self.has_end = vim.bo[self.buffer].endofline
end

--- Shows a whole text, and keeps what differed here beside.
function Note:become(new)
  local before = text.join(self.lines, self.has_end)
  local found = text.change(before, new, 0)
  if #found == 1 and found[1][2] > found[1][1] then
    self.beside = self.shows.beside(before)
  end
  self:change(found)
end

--- Fills an empty buffer with a text.
function Note:fill(new)
  local lines, has_end = text.split(new)
  self:apply(function()
    api.nvim_buf_set_lines(self.buffer, 0, -1, false, lines)
    self.lines = lines
    self:set_end(has_end)
  end)
end

-- Places.

--- The place in bytes of a cursor, as Neovim's API has it.
function Note:place_of(cursor)
  local row = math.min(cursor[1], #self.lines)
  return text.offset(self.lines, row - 1) + math.min(cursor[2], #self.lines[row])
end

--- Where the other end of a selection is, if there is one in the current window.
function Note:anchor()
  if api.nvim_get_current_buf() == self.buffer and api.nvim_get_mode().mode:find('^[vV\22]') then
    local at = vim.fn.getpos('v')
    return self:place_of({ at[2], at[3] - 1 })
  end
end

--- What the windows that show the note have at which places.
function Note:kept_places()
  local kept = {}
  for _, window in ipairs(vim.fn.win_findbuf(self.buffer)) do
    local top = vim.fn.getwininfo(window)[1].topline
    local places = { cursor = self:place_of(api.nvim_win_get_cursor(window)), top = self:place_of({ top, 0 }) }
    if window == api.nvim_get_current_win() then
      places.anchor = self:anchor()
    end
    table.insert(kept, { window = window, places = places })
  end
  return kept
end

--- Whether a window's cursor stands between characters, as where one types, and not on one.
function Note.is_between(window)
  return window == api.nvim_get_current_win() and api.nvim_get_mode().mode:find('^[iR]') ~= nil
end

--- Moves what windows have along with a change that is to be made. A place on a character goes with that, and one at a
--- line's begin with the line where whole lines come in.
function Note:move_places(kept, change)
  local opens = text.opens_line(self.lines, self.has_end, change)
  local row, column = text.position(self.lines, change[1])
  local is_character = column < #self.lines[row + 1]
  for _, window in ipairs(kept) do
    local goes = opens or is_character and not self.is_between(window.window)
    for name, place in pairs(window.places) do
      window.places[name] = text.moved(place, change, goes and name ~= 'top')
    end
  end
end

--- Puts a window's cursor at a place.
function Note:put_cursor(window, place)
  local row, column = text.position(self.lines, place)
  local now = api.nvim_win_get_cursor(window)
  if now[1] ~= row + 1 or now[2] ~= column then
    api.nvim_win_set_cursor(window, { row + 1, column })
  end
end

function Note:restore_places(kept)
  for _, each in ipairs(kept) do
    if each.places.anchor and each.places.anchor ~= self:anchor() then
      vim.cmd('normal! o')
      self:put_cursor(each.window, each.places.anchor)
      vim.cmd('normal! o')
    end
    self:put_cursor(each.window, each.places.cursor)
    local top = text.position(self.lines, each.places.top) + 1
    if vim.fn.getwininfo(each.window)[1].topline ~= top then
      api.nvim_win_call(each.window, function() vim.fn.winrestview({ topline = top }) end)
    end
  end
end

--- Puts the user's cursor at a place.
function Note:go_to(place)
  if api.nvim_get_current_buf() == self.buffer then
    self:put_cursor(api.nvim_get_current_win(), place)
  end
end

--- Sends where the user is, 20 times a second at most.
function Note:tell_place()
  if not self.is_open or api.nvim_get_current_buf() ~= self.buffer then
    return
  end
  local now = self.clock()
  if now < self.place_sent + CURSOR_SECONDS then
    if not self.place_due then
      self.place_due = true
      vim.defer_fn(function()
        self.place_due = false
        self:tell_place()
      end, CURSOR_SECONDS * 1000 + 5)
    end
    return
  end
  self:flush_command()
  if #self.changes == 0 and not self.is_unsure then
    self:send_place(now)
  end
end

function Note:send_place(now)
  local at, anchor = self:place_of(api.nvim_win_get_cursor(0)), self:anchor()
  if self.place and self.place[1] == at and self.place[2] == anchor then
    return
  end
  self.place, self.place_sent, self.seen = { at, anchor }, now, 0
  self.send({ ['do'] = 'cursor', version = self.version, at = at, anchor = anchor })
end

return Note
