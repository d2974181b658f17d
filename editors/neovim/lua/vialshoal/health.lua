--- What `:checkhealth vialshoal` says.
local M = {}

-- The names of before Neovim 0.10 are tried, too.
local function report(kind, ...)
  local health = vim.health or require('health')
  local call = health[kind] or health['report_' .. kind] or require('health')['report_' .. kind]
  call(...)
end

local function check_program(command)
  if vim.fn.executable(command[1]) == 0 then
    return report('error', ('%s is no program'):format(command[1]),
      { "require('vialshoal').setup({ command = { '/path/to/bin/note' } }) names it." })
  end
  local words = vim.fn.system(vim.list_extend(vim.deepcopy(command), { '--help' }))
  if vim.v.shell_error ~= 0 then
    return report('error', ("%s doesn't run: %s"):format(command[1], vim.trim(words)))
  end
  report('ok', ('%s runs'):format(command[1]))
end

local function check_notes(vialshoal)
  for _, note in pairs(vialshoal.notes()) do
    local is_well = note.is_open and note.state.log ~= 'away' and not note.state.trouble
    report(is_well and 'ok' or 'warn', ('note %s: %s'):format(note.name, vialshoal.state_words(note)))
  end
end

function M.check()
  local vialshoal = require('vialshoal')
  report('start', 'vialshoal')
  if vim.fn.has('nvim-0.7') == 1 then
    report('ok', 'Neovim is 0.7 or later')
  else
    report('error', 'Neovim 0.7 or later is needed')
  end
  check_program(vialshoal.options.command)
  report('info', ('others see you as "%s"'):format(vialshoal.options.name))
  if not (vim.o.statusline .. vim.wo.statusline):find('vialshoal', 1, true) then
    report('info', "the status line has no item of vialshoal's; :help vialshoal-statusline")
  end
  check_notes(vialshoal)
end

return M
