# frozen_string_literal: true

module Bikleinu
  VERSION = '0.1.0'
end
