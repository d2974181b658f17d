--- Typing that suggests: what a command has changed in the buffer is put back, and gathered, as long as it goes on at one
--- place, into one suggestion. All editors join it so; share/engine/vectors has the cases.
local api = vim.api
local review = require('vialshoal.review')
local text = require('vialshoal.text')

local Suggesting = {}
Suggesting.__index = Suggesting

local SPACE = api.nvim_create_namespace('vialshoal_suggesting')
local GROUP = api.nvim_create_augroup('vialshoal_suggesting', {})
-- The silence that ends a suggestion, in all editors, unless the user has set another one.
local REST_SECONDS = 4
-- It is looked again so soon whether a command still holds places.
local AGAIN_MILLISECONDS = 50
local MOST_CELLS = 60
-- What Vim types by itself would be suggested, too.
local PLAIN = { autoindent = false, smartindent = false, cindent = false, indentexpr = '', textwidth = 0, wrapmargin = 0,
  formatoptions = '' }

-- What is gathered.

--- Words without their last sign; or their last word, by a key that takes more.
local function without_last(words, back)
  if back > 1 then
    local shorter = words:gsub('%s+$', '')
    return shorter == words and words:gsub('%S+$', '') or shorter:gsub('%S+$', '')
  end
  return vim.fn.substitute(words, [[\m\_.$]], '', '')
end

--- Whether a change takes back what was typed, which is seen behind the stretch.
local function takes_typed(pending, change, back)
  return back > 0 and pending.new ~= '' and change[2] == pending.ending
end

--- What is gathered with a change besides, which deletes so many signs backwards; nil where that is elsewhere.
local function joined(pending, change, back)
  if change[2] < pending.begin or pending.ending < change[1] then
    return nil
  elseif takes_typed(pending, change, back) then
    return { begin = pending.begin, ending = pending.ending, new = without_last(pending.new, back) }
  end
  return { begin = math.min(pending.begin, change[1]), ending = math.max(pending.ending, change[2]), new = pending.new .. change[3] }
end

--- What is gathered once a change is added, nil where that is nothing; where the cursor is then; and whether what was
--- gathered before is a suggestion of its own.
function Suggesting.gathered(pending, change, back)
  local found = pending and joined(pending, change, back)
  local one = found or { begin = change[1], ending = change[2], new = change[3] }
  local is_behind = change[3] ~= '' or found and takes_typed(pending, change, back)
  local cursor = is_behind and one.ending or back > 0 and change[1] or change[2]
  local is_something = one.begin < one.ending or one.new ~= ''
  return is_something and one or nil, cursor, pending ~= nil and not found
end

-- The mode.

local function rest_seconds()
  return tonumber(vim.env.VIALSHOAL_PAUSE) or REST_SECONDS
end

--- Begins the mode in a note, or ends it.
function Suggesting.toggle(note)
  note:flush()
  if note.suggesting then
    note.suggesting:stop()
    return note.shows.words('What you type is done again.')
  end
  note.suggesting = setmetatable({ note = note, made = {}, turn = 0, options = {} }, Suggesting)
  note.suggesting:start()
  note.shows.words('What you type and delete is suggested; u takes it back.')
end

function Suggesting:start()
  local note = self.note
  for name, value in pairs(PLAIN) do
    self.options[name] = vim.bo[note.buffer][name]
    vim.bo[note.buffer][name] = value
  end
  api.nvim_create_autocmd({ 'CursorMoved', 'CursorMovedI' }, { group = GROUP, buffer = note.buffer, callback = function()
    self:passes()
  end })
  api.nvim_create_autocmd('BufLeave', { group = GROUP, buffer = note.buffer, callback = function() self:finish() end })
  -- A note of the first form can have no suggestions.
  note:ask({ ['do'] = 'remarks', version = note.version, most = 0 }, function(answer)
    if answer.error == 'margin' and note.suggesting == self then
      self:stop()
    end
  end)
end

--- Ends the mode, and sends what is gathered, or keeps it where it can't be sent.
function Suggesting:stop()
  local note = self.note
  self:finish()
  if self.pending then
    review.keep(note, "This note isn't open.", self.pending.new)
    self.pending = nil
  end
  note.suggesting = nil
  if api.nvim_buf_is_valid(note.buffer) then
    api.nvim_clear_autocmds({ group = GROUP, buffer = note.buffer })
    api.nvim_buf_clear_namespace(note.buffer, SPACE, 0, -1)
    for name, value in pairs(self.options) do
      vim.bo[note.buffer][name] = value
    end
  end
end

--- Takes note of where the cursor is before a key.
function Suggesting:before_key()
  self.before = self.note:place_of(api.nvim_win_get_cursor(0))
end

--- Puts back what the buffer has otherwise than the engine, and suggests it, unless a command still holds places.
function Suggesting:take()
  local note = self.note
  if note:is_held() then
    if not self.looks_again then
      self.looks_again = true
      vim.defer_fn(function()
        self.looks_again = false
        note:flush_command()
      end, AGAIN_MILLISECONDS)
    end
    return
  end
  local cursor
  for _, each in ipairs(note:put_back()) do
    cursor = self:add(each[1], each[2])
  end
  if cursor then
    note:go_to(cursor)
    self:draw()
    self:soon()
  end
end

--- Adds a change, which takes away some words.
function Suggesting:add(change, gone)
  local is_back = change[3] == '' and self.before and self.before >= change[2]
  local back = is_back and vim.fn.strchars(gone, true) or 0
  local pending, cursor, is_done = Suggesting.gathered(self.pending, change, back)
  if is_done then
    self:finish()
  end
  self.pending = pending
  return cursor
end

--- Sends what is gathered from which the user has gone away.
function Suggesting:passes()
  local note = self.note
  note:flush_command()
  if self.pending and not note.is_unsure and api.nvim_get_current_buf() == note.buffer then
    local place = note:place_of(api.nvim_win_get_cursor(0))
    if place < self.pending.begin or self.pending.ending < place then
      self:finish()
    end
  end
end

--- Sends what is gathered once nothing is typed for a while.
function Suggesting:soon()
  self.turn = self.turn + 1
  local turn = self.turn
  vim.defer_fn(function()
    if self.turn == turn then
      self:finish()
    end
  end, math.min(rest_seconds() * 1000, 2 ^ 31 - 1))
end

--- Sends what is gathered, unless the note isn't open now.
function Suggesting:finish()
  local note, pending = self.note, self.pending
  if not pending or not note.is_open then
    return
  end
  self.pending = nil
  local request = { ['do'] = 'suggest', version = note.version, begin = pending.begin, ['end'] = pending.ending, new = pending.new }
  if not api.nvim_buf_is_loaded(note.buffer) then
    return note.send(request)
  end
  self:draw()
  review.say(note, request, pending.new, function(answer) table.insert(self.made, answer.thread) end)
end

--- Drops what is gathered, or takes back the last suggestion that was made in the mode.
function Suggesting:undo()
  local note = self.note
  note:flush()
  if self.pending then
    self.pending = nil
    self:draw()
  elseif #self.made > 0 then
    note:ask({ ['do'] = 'withdraw', to = self.made[#self.made] }, function() end)
    if note.is_open then
      -- Without an engine that wasn't asked, and can be taken back later.
      table.remove(self.made)
    end
  else
    note.shows.words('You have suggested nothing here that could be taken back.')
  end
end

--- Moves what is gathered along with a change of others.
function Suggesting:follow(change)
  local pending = self.pending
  if pending then
    local is_place = pending.begin == pending.ending
    pending.begin = text.moved(pending.begin, change, not is_place)
    pending.ending = math.max(pending.begin, text.moved(pending.ending, change, false))
    if pending.begin == pending.ending and pending.new == '' then
      self.pending = nil
    end
  end
end

--- Shows what is gathered, as what others suggest.
function Suggesting:draw()
  local note, pending = self.note, self.pending
  if not api.nvim_buf_is_valid(note.buffer) then
    return
  end
  api.nvim_buf_clear_namespace(note.buffer, SPACE, 0, -1)
  if not pending then
    return
  end
  review.set_highlights()
  local row, column = text.position(note.lines, pending.begin)
  local last_row, last_column = text.position(note.lines, pending.ending)
  api.nvim_buf_set_extmark(note.buffer, SPACE, row, column, {
    end_row = last_row, end_col = last_column, hl_group = 'VialshoalSuggestion', strict = false,
    virt_text = { { (' you -> "%s"'):format(text.line(pending.new, MOST_CELLS)), 'VialshoalSuggested' } }, virt_text_pos = 'eol',
  })
end

return Suggesting
