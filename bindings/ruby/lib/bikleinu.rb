# frozen_string_literal: true

require 'json'
require 'monitor'

# Bikleinu for Ruby: Liquid templates over data.
#
#   Bikleinu::Template.parse('Hello {{ name }}!').render('name' => 'Ada')
#
# A Template is parsed once and renders many times, and an Environment holds what templates share. What can't be done raises a
# Bikleinu::Error, or Ruby's own errors for arguments of another class, bytes that aren't UTF-8, and where memory runs out.
module Bikleinu
end

require_relative 'bikleinu/version'
require_relative 'bikleinu/errors'
require_relative 'bikleinu/paths'
require_relative 'bikleinu/conversions'
require_relative 'bikleinu/settings'
require 'bikleinu/bikleinu_ext'
require_relative 'bikleinu/plan'
require_relative 'bikleinu/near_plan'
require_relative 'bikleinu/data'
require_relative 'bikleinu/folder'
require_relative 'bikleinu/partials'
require_relative 'bikleinu/given_values'
require_relative 'bikleinu/filters'
require_relative 'bikleinu/template'
require_relative 'bikleinu/environment'

module Bikleinu
  private_constant :Handle
end
