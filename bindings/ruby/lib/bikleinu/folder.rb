# frozen_string_literal: true

module Bikleinu
  # The files below a folder, and a line for each thing that is left out of it.
  #
  # A file is a partial by its path from the folder, as parts/line.liquid, and without its suffix, as parts/line. What has a name
  # that begins with a dot is passed over, and so is a link to a folder below this one. Anything else but a regular file, a link
  # that leads out of the folder or nowhere, a file with a byte 0 and a name that isn't UTF-8 are left out.
  class Folder
    attr_reader :left_out

    # A path, in which nothing can be taken for another line.
    def self.shown(path)
      path.match?(/\A[[:print:]]*\z/) ? path : path.inspect
    end

    def initialize(path)
      @path = Text.utf8(path.to_s, 'the path of a folder')
      @real = File.realpath(@path)
      @left_out = []
    end

    # The sources by their names: a whole name counts before one that lost its suffix.
    def sources
      found = files('').sort_by(&:b).filter_map { |inner| [inner, text(inner)] }.to_h.compact
      stems = found.filter_map { |inner, source| [stem(inner), source] if stem(inner) }.to_h
      stems.merge(found)
    end

    private

    def text(inner)
      path = "#{@path}/#{inner}"
      bytes = File.binread(path)
      return leave_out(path, 'is no text: it has a byte 0') if bytes.include?("\0".b)

      Text.utf8(bytes, "the file #{path.inspect}")
    end

    # The paths of the regular files, from the folder on.
    def files(inner)
      folder = inner.empty? ? @path : "#{@path}/#{inner}".chomp('/')
      names = Dir.children(folder, encoding: Encoding::UTF_8)
      @left_out << "left out: a name in #{Folder.shown(folder.chomp('/'))} isn't UTF-8" if names.any? { |name| !name.valid_encoding? }
      names.select { |name| name.valid_encoding? && !name.start_with?('.') }.sort_by(&:b).flat_map { |name| entry(folder, inner, name) }
    end

    def entry(folder, inner, name)
      path = "#{folder}/#{name}"
      return files("#{inner}#{name}/") if File.lstat(path).directory?

      file?(path) ? ["#{inner}#{name}"] : []
    rescue Errno::ENOENT
      []
    end

    # Whether it is a regular file below the folder. What is neither that nor a link to a folder there is left out.
    def file?(path)
      known = File.stat(path)
      why = leads(path) || kind(known)
      why ? leave_out(path, why) : known.file?
    rescue Errno::EACCES
      raise unless File.symlink?(path)

      leave_out(path, 'is a link that you have no right to follow')
    rescue Errno::ENOENT, Errno::ELOOP, Errno::ENOTDIR
      leave_out(path, 'is a link that leads nowhere') if File.symlink?(path)
    end

    # Where a link leads that doesn't lead below the folder, or nil.
    def leads(path)
      return unless File.symlink?(path)

      target = File.realpath(path).dup.force_encoding(Encoding::UTF_8)
      return "is a link to a path that isn't UTF-8" unless target.valid_encoding?

      'is a link that leads out of the folder' unless target == @real || target.start_with?("#{@real.chomp('/')}/")
    end

    # What is neither a file nor a folder, or nil.
    def kind(known)
      return if known.file? || known.directory?
      return 'is a pipe' if known.pipe?

      known.socket? ? 'is a socket' : 'is a device'
    end

    def leave_out(path, why)
      @left_out << "left out: #{Folder.shown(path)} #{why}"
      nil
    end

    # The path without the suffix of its last part, where it has one.
    def stem(inner)
      folder, slash, last = inner.rpartition('/')
      stem, dot, = last.rpartition('.')
      "#{folder}#{slash}#{stem}" unless dot.empty? || stem.empty?
    end
  end
  private_constant :Folder
end
