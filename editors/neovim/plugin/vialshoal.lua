-- The commands; all else is loaded with the first of them.
if vim.g.loaded_vialshoal then
  return
end
vim.g.loaded_vialshoal = true

local command = vim.api.nvim_create_user_command
local group = vim.api.nvim_create_augroup('vialshoal_plugin', {})

vim.api.nvim_create_autocmd('BufReadCmd', { group = group, pattern = 'vialshoal://*', callback = function(event)
  require('vialshoal').load(event.buf)
end })

vim.api.nvim_create_autocmd('SessionLoadPost', { group = group, callback = function()
  require('vialshoal').load_session()
end })

command('Vialshoal', function(given)
  require('vialshoal').open(given.fargs[1], given.fargs[2], nil, given.bang)
end, {
  nargs = '+',
  bang = true,
  desc = 'Open a note: its name, and perhaps the log that carries it; with ! a new one',
  complete = function(begun)
    return require('vialshoal').names(begun)
  end,
})

command('VialshoalJoin', function(given)
  require('vialshoal').open(given.args, nil, vim.fn.inputsecret('Link: '))
end, { nargs = 1, desc = "Join another's note, by a link that is asked for" })

command('VialshoalHistory', function()
  require('vialshoal').history()
end, { desc = 'Go through the older texts of this note' })

command('VialshoalPutBack', function()
  require('vialshoal').put_back()
end, { desc = "Type the words again that you typed and the note didn't take" })

command('VialshoalWho', function(given)
  require('vialshoal').who(given.line1, given.line2)
end, { range = true, desc = 'Say who wrote the line, or those of the range' })

-- What a review has: how each command is called, what it does, and what it takes.
for name, of in pairs({
  Remark = { 'remark', 'Remark on the selection, the lines of the range or the cursor', range = true, nargs = '*', bang = true },
  Suggest = { 'suggest', 'Suggest another text for them, or one that comes in at the cursor', range = true, nargs = '*', bang = true },
  SuggestMode = { 'suggest_mode', 'Have what you type and delete be suggested, or be done again' },
  Reply = { 'reply', 'Reply to the remark at the cursor', nargs = '*', bang = true },
  Revise = { 'revise', 'Have your own remark or reply at the cursor say something else', nargs = '*', bang = true },
  Withdraw = { 'withdraw', 'Take back your own remark or reply at the cursor' },
  Resolve = { 'resolve', 'Say that the remark at the cursor is resolved' },
  Reopen = { 'reopen', 'Open the remark at the cursor again' },
  Accept = { 'accept', 'Accept the suggestion at the cursor; with ! though its text has changed', bang = true },
  Reject = { 'reject', 'Reject the suggestion at the cursor' },
  Read = { 'read', 'Show all that the remark at the cursor says' },
  Next = { 'next', 'Go to the next open remark, or so many further', count = 1 },
  Previous = { 'previous', 'Go to the previous open remark, or so many back', count = 1 },
  Remarks = { 'list', 'List the open remarks, or those of an author; with ! all', nargs = '*', bang = true },
  Changed = { 'changed', 'Show what changed since you looked, or since so many hours; with ! no more', nargs = '?', bang = true },
}) do
  command('Vialshoal' .. name, function(given)
    require('vialshoal').review(of[1], given)
  end, { desc = of[2], range = of.range, nargs = of.nargs, bang = of.bang, count = of.count })
end
