--- With real engines: remarks, suggestions and what changed, between two people.
local Child = require('test.child')
local support = require('test.support')

local HOSTILE = '%s %{system("x")}\27]0;x\7\226\128\174<b>'
local SHOWN = '%s %{system("x")}\239\191\189]0;x\239\191\189\239\191\189<b>'

--- Calls a test with two people who have a note of the second form with a text.
local function with_two(name, words, body)
  Child.with_folder(name, function(open, folder)
    vim.env.VIALSHOAL_FORM, vim.env.VIALSHOAL_ZERO_BITS = '2', '0'
    local is_done, why = xpcall(function()
      local ada, bo = Child.two(open, folder)
      ada:type('i' .. words:gsub('\n', '<CR>') .. '<Esc>')
      bo:shows(words)
      body(ada, bo, open)
    end, debug.traceback)
    vim.env.VIALSHOAL_FORM, vim.env.VIALSHOAL_ZERO_BITS = nil, nil
    assert(is_done, why)
  end)
end

--- What a Neovim shows in a namespace: lines and columns, a highlight, and words behind the line.
local function shown(child, name)
  return child:run([[
    local space = vim.api.nvim_get_namespaces()[...]
    return vim.tbl_map(function(mark)
      local virtual = mark[4].virt_text
      return { mark[2], mark[3], mark[4].end_row or vim.NIL, mark[4].end_col or vim.NIL, mark[4].hl_group or '',
        virtual and virtual[1][1] or '' }
    end, space and vim.api.nvim_buf_get_extmarks(0, space, 0, -1, { details = true }) or {})
  ]], name or 'vialshoal_review')
end

--- Waits until a Neovim shows these.
local function shows(child, wanted, name)
  if not pcall(support.wait, function() return vim.deep_equal(wanted, shown(child, name)) end) then
    support.same(wanted, shown(child, name), child.person)
  end
end

--- Waits until a Neovim has told words.
local function tells(child, words)
  support.wait(function() return child:run([[return vim.fn.execute('messages')]]):find(words, 1, true) end, words)
end

with_two('a thread is begun, answered and resolved', 'tea and jam', function(ada, bo)
  bo:type('0wwve:VialshoalRemark Which one?<CR>')
  shows(ada, { { 0, 8, 0, 11, 'VialshoalRemark', ' Bo: Which one?' } })
  shows(bo, { { 0, 8, 0, 11, 'VialshoalRemark', ' you: Which one?' } })
  ada:type(':VialshoalReply<CR>')
  ada:type('Plum.<CR>')
  shows(bo, { { 0, 8, 0, 11, 'VialshoalRemark', ' you: Which one? (1)' } })
  bo:type(':VialshoalRevise Which?<CR>')
  shows(ada, { { 0, 8, 0, 11, 'VialshoalRemark', ' Bo: Which? (1)' } })
  -- Text that comes in before it moves it.
  ada:type('0i> <Esc>')
  shows(bo, { { 0, 10, 0, 13, 'VialshoalRemark', ' you: Which? (1)' } })
  support.wait(function() return ada:run('return v.statusline()'):find(', 1 remark', 1, true) end, 'a count')
  ada:type(':VialshoalResolve<CR>')
  shows(bo, { { 0, 10, 0, 13, '', '' } })
  bo:type(':VialshoalReopen<CR>')
  shows(ada, { { 0, 10, 0, 13, 'VialshoalRemark', ' Bo: Which? (1)' } })
  ada:type(':VialshoalNext<CR>')
  support.same({ 1, 10 }, ada:run('return vim.api.nvim_win_get_cursor(0)'))
  ada:type(':VialshoalRead<CR>')
  local words = table.concat(ada:run('return vim.api.nvim_buf_get_lines(0, 0, -1, false)'), '\n')
  assert(words:find('^On "jam"\nBo, .*%(revised%): Which%?\n  you, .*: Plum%.$'), words)
  ada:type('q')
  -- The reply is Ada's, and nothing else.
  ada:type(':VialshoalWithdraw<CR>')
  support.wait(function()
    return bo:run([[return require('vialshoal.review').words(require('vialshoal.review').at_cursor(v.note())[1])]])
      :find('taken back', 1, true)
  end, 'what was taken back')
  bo:type(':VialshoalWithdraw<CR>')
  shows(ada, { { 0, 10, 0, 13, '', '' } })
end)

with_two('a suggestion is accepted or rejected', 'tea and jam', function(ada, bo)
  bo:type('0wwve:VialshoalSuggest<CR>')
  bo:type('<C-u>honey 🍯<CR>')
  shows(ada, { { 0, 8, 0, 11, 'VialshoalSuggestion', ' Bo -> "honey 🍯"' } })
  ada:shows('tea and jam')
  ada:type(':VialshoalAccept<CR>')
  ada:shows('tea and honey 🍯')
  bo:shows('tea and honey 🍯')
  ada:type('u')
  bo:shows('tea and jam')
  shows(ada, { { 0, 8, 0, 11, 'VialshoalSuggestion', ' Bo -> "honey 🍯"' } })
  ada:type(':VialshoalReject<CR>')
  shows(bo, { { 0, 8, 0, 11, '', '' } })
  bo:type(':VialshoalRemarks<CR>')
  tells(bo, 'There are no remarks.')
  bo:type(':VialshoalRemarks!<CR>')
  support.wait(function()
    return bo:run('return vim.api.nvim_get_current_line()'):find('(rejected) you -> "honey 🍯"', 1, true)
  end, 'the list')
end)

with_two('that text go is suggested by nothing, and no more by a question that is left', 'tea and jam', function(ada, bo)
  bo:type('0wve:VialshoalSuggest<CR>')
  bo:type('<Esc>')
  bo:type('0wve:VialshoalRemark<CR>')
  bo:type('<CR>')
  tells(bo, 'Nothing was written.')
  bo:type('0wve:VialshoalSuggest<CR>')
  bo:type('<C-u><CR>')
  shows(ada, { { 0, 4, 0, 7, 'VialshoalSuggestion', ' Bo -> ""' } })
  ada:type(':VialshoalNext<CR>')
  ada:type(':VialshoalAccept<CR>')
  bo:shows('tea  jam')
end)

with_two('what has changed is asked about', 'tea and jam', function(ada, bo)
  bo:type('0wwve:VialshoalSuggest honey<CR>')
  shows(ada, { { 0, 8, 0, 11, 'VialshoalSuggestion', ' Bo -> "honey"' } })
  ada:type('0wwaX<Esc>')
  support.wait(function() return ada:is_quiet() end)
  ada:type(':VialshoalAccept<CR>iy y <Esc>')
  support.wait(function() return ada:run("return require('vialshoal').note().shown_changed ~= nil") end, 'what has changed')
  local words = ada:run([[
    local shown = require('vialshoal').note().shown_changed.window
    return table.concat(vim.api.nvim_buf_get_lines(vim.api.nvim_win_get_buf(shown), 0, -1, false), '\n')
  ]])
  assert(words:find('It was:\njam\n', 1, true) and words:find('It would be:\nXhoney\n', 1, true), words)
  ada:type('iy y <Esc>')
  support.wait(function() return bo:text():find('y y', 1, true) end, 'what was typed')
  support.same(nil, bo:text():find('honey', 1, true))
  -- The passage has changed since that was shown, so the new text is shown first.
  ada:type(':VialshoalAccept!<CR>')
  support.wait(function()
    return ada:run("return ((require('vialshoal').note().shown_changed or {}).becomes or ''):find('y y', 1, true) ~= nil")
  end, 'the new text')
  ada:type(':VialshoalAccept!<CR>')
  support.wait(function() return bo:text():find('honey', 1, true) end, 'the text')
  Child.meet({ ada, bo })
end)

with_two('nothing of a body is obeyed', 'tea', function(ada, bo)
  bo:run([[
    vim.api.nvim_win_set_cursor(0, { 1, 0 })
    require('vialshoal').review('remark', { args = ..., range = 0 })
  ]], HOSTILE .. '\nvim: set ts=3:')
  shows(ada, { { 0, 0, 0, 0, 'VialshoalRemark', ' Bo: ' .. SHOWN .. ' vim: set ts=3:' } })
  ada:type('0:VialshoalRead<CR>')
  local words = table.concat(ada:run('return vim.api.nvim_buf_get_lines(0, 0, -1, false)'), '\n')
  assert(words:find(SHOWN .. '\nvim: set ts=3:', 1, true), words)
  support.same({ 8, false }, ada:run('return { vim.bo.tabstop, vim.bo.modeline }'))
  ada:type('q')
end)

with_two('who comes back sees what changed', 'tea and jam', function(ada, bo, open)
  support.wait(function() return ada:is_quiet() end)
  ada:quit()
  bo:type('03la 🍰<Esc>')
  bo:type('wdw')
  support.wait(function() return bo:is_quiet() end)
  local again = open('Ada')
  again:shows(bo:text())
  again:type(':VialshoalChanged<CR>')
  tells(again, '2 changed')
  local words = again:run([[return vim.tbl_map(function(item) return item.text end, vim.fn.getqflist())]])
  table.sort(words)
  support.same({ 'Came, of Bo', 'Went, of you, by Bo: and' }, words)
  again:type(':VialshoalChanged!<CR>')
  support.same({}, shown(again, 'vialshoal_changed'))
end)

Child.with_folder('the first form has no margin', function(open)
  vim.env.VIALSHOAL_FORM = '1'
  local ada = open('Ada')
  vim.env.VIALSHOAL_FORM = nil
  ada:type('itea<Esc>')
  ada:type(':VialshoalRemark Which one?<CR>')
  tells(ada, 'This note has no margin')
end)

with_two('what is typed is suggested where one chose that', 'tea and jam\nmilk', function(ada, bo)
  local function suggested()
    return vim.tbl_map(function(mark) return { mark[1], mark[2], mark[3], mark[4], mark[6] } end, shown(ada))
  end
  bo:type(':VialshoalSuggestMode<CR>')
  bo:type('gg$bcwhoneyx<BS>')
  shows(bo, { { 0, 8, 0, 11, 'VialshoalSuggestion', ' you -> "honey"' } }, 'vialshoal_suggesting')
  support.same('tea and jam\nmilk', bo:text())
  -- Others' text comes in meanwhile, and moves it.
  ada:type('gg0i> <Esc>')
  bo:shows('> tea and jam\nmilk')
  bo:type('<CR>plum')
  shows(bo, { { 0, 10, 0, 13, 'VialshoalSuggestion', ' you -> "honey plum"' } }, 'vialshoal_suggesting')
  support.same({}, suggested())
  bo:type('<Esc>jdd')
  support.wait(function() return #suggested() == 1 end, 'the first one')
  support.same({ { 0, 10, 0, 13, ' Bo -> "honey plum"' } }, suggested())
  -- A macro's, a block's and a substitution's are suggested when they have done their work.
  bo:type('gg0qaxq@a')
  bo:type('gg0<C-v>jI# <Esc>')
  bo:type(':%s/a/o/g<CR>')
  bo:type(':VialshoalSuggestMode<CR>')
  support.same('> tea and jam\nmilk', bo:text())
  support.wait(function()
    return bo:run('return next(v.note().waiting) == nil') and bo:is_quiet()
  end, 'all to be answered')
  support.wait(function() return #suggested() == 6 end, 'all of them')
  support.same('> tea and jam\nmilk', ada:text())
  local function new_of(id)
    return ada:run([[
      for _, thread in pairs(v.note().review.threads) do
        if thread.id == ... then return { thread.begin, thread['end'], thread.new or '' } end
      end
    ]], id)
  end
  local ids = ada:run([[
    local ids = vim.tbl_map(function(thread) return thread.id end, vim.tbl_values(v.note().review.threads))
    table.sort(ids)
    return ids
  ]])
  local found = vim.tbl_map(new_of, ids)
  table.sort(found, function(one, other) return one[1] < other[1] or one[1] == other[1] and one[2] < other[2] end)
  support.same({ { 0, 0, '# ' }, { 0, 2, '' }, { 4, 12, 'o ond jo' }, { 10, 13, 'honey\nplum' }, { 13, 18, '' }, { 14, 14, '# ' } },
    found)
  bo:type('gg0x')
  ada:shows(' tea and jam\nmilk')
end)

with_two('what is said fits on a narrow screen', 'tea and jam', function(ada, bo)
  bo:type('o' .. ('bread '):rep(40) .. '<Esc>0:VialshoalRemark ' .. ('long '):rep(40) .. '<CR>')
  support.wait(function() return ada:run('return v.note().remarks.open') == 1 end, 'a remark')
  ada:gets_screen(70)
  local path = '/tmp/' .. ('none/'):rep(30) .. 'x'
  for _, keys in ipairs({ ':VialshoalChanged 1<CR>', ':VialshoalChanged x<CR>', ':VialshoalNext<CR>', ':VialshoalWho<CR>',
    ':VialshoalRevise ' .. ('word '):rep(30) .. '<CR>', ':VialshoalAccept!<CR>', ':VialshoalReopen<CR>', ':VialshoalSuggestMode<CR>', 'u',
    ':VialshoalSuggestMode<CR>', '<C-r>', 'U', ':earlier 3f<CR>', ':Vialshoal a/b<CR>', ':w<CR>', ':w ' .. path .. '<CR>',
    ':VialshoalHistory<CR>' }) do
    assert(ada:says_and_goes_on(keys), keys)
  end
  -- What doesn't fit is kept.
  local told = ada:run([[return vim.fn.execute('messages')]])
  assert(told:gsub('\n', ''):find(path, 1, true), told)
end)
