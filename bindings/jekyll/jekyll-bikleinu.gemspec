# frozen_string_literal: true

Gem::Specification.new do |gem|
  gem.name = 'jekyll-bikleinu'
  gem.version = '0.1.0'
  gem.authors = ['the authors of Bikleinu']
  gem.summary = 'Jekyll with Bikleinu in the place of Liquid'
  gem.description = 'A plugin for Jekyll that renders pages by Bikleinu, and by Liquid what that refuses.'
  gem.license = 'MIT'
  gem.required_ruby_version = '>= 3.1'
  gem.files = Dir.chdir(__dir__) { Dir['README.md', 'LICENSE', 'lib/**/*.rb'].sort }
  gem.add_runtime_dependency 'bikleinu', '= 0.1.0'
  gem.add_runtime_dependency 'jekyll', '>= 4.3', '< 5'
  gem.metadata = { 'rubygems_mfa_required' => 'true' }
end
