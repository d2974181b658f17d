--- Runs the tests that are named, and says how many passed.
local here = vim.fn.fnamemodify(debug.getinfo(1, 'S').source:sub(2), ':p:h:h')
package.path = here .. '/?.lua;' .. package.path
vim.opt.runtimepath:prepend(here)
for _, name in ipairs(vim.split(vim.env.VIALSHOAL_TESTS or 'vectors', ' ')) do
  require('test.' .. name)
end
require('test.support').finish()
