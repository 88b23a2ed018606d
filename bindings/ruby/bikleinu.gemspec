# frozen_string_literal: true

require_relative 'lib/bikleinu/version'

# gems.py puts the library and its header beside the extension's files, and builds the gem of that.
Gem::Specification.new do |gem|
  gem.name = 'bikleinu'
  gem.version = Bikleinu::VERSION
  gem.platform = 'x86_64-linux'
  gem.authors = ['the authors of Bikleinu']
  gem.summary = 'Liquid templates, every rule proved'
  gem.description = 'Liquid templates over data, by a library whose every function is proved to meet its contract.'
  gem.license = 'MIT'
  gem.required_ruby_version = '>= 3.1'
  gem.extensions = ['ext/bikleinu/extconf.rb']
  gem.files = Dir.chdir(__dir__) { Dir['README.md', 'LICENSE', 'lib/**/*.rb', 'ext/bikleinu/*.{rb,c,h,a}'].sort }
  gem.metadata = { 'rubygems_mfa_required' => 'true' }
end
