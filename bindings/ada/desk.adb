--  Prints what examples/c/desk.c prints: desk TRACK < BATCH
--  It feeds a batch, says why lines were refused, and prints at the end what the desk knows.
--
--  gnatmake desk.adb -largs $(pkg-config --libs rbc)

with Ada.Command_Line;         use Ada.Command_Line;
with Ada.Direct_IO;
with Ada.Directories;
with Ada.IO_Exceptions;
with Ada.Strings.Unbounded;    use Ada.Strings.Unbounded;
with Ada.Text_IO;              use Ada.Text_IO;
with Ada.Text_IO.Text_Streams; use Ada.Text_IO.Text_Streams;
with Interfaces;               use Interfaces;
with RBC;                      use RBC;

procedure Desk is

   Stopped : exception;

   Self : RBC.Desk;

   function Image (Value : Unsigned_32) return String is
      Text : constant String := Unsigned_32'Image (Value);
   begin
      return Text (2 .. Text'Last);
   end Image;

   procedure Must (Code : Status) is
   begin
      if Code /= Done then
         Put_Line (Standard_Error, "desk: fault " & Image (Unsigned_32 (Code)) & " of rbc.h");
         raise Stopped;
      end if;
   end Must;

   --  The next line of standard input, without its line feed; none is found after the last one.

   procedure Next_Line (Line : out Unbounded_String; Found : out Boolean) is
      Next : Character;
   begin
      Line  := Null_Unbounded_String;
      Found := False;
      loop
         Character'Read (Stream (Standard_Input), Next);
         Found := True;
         exit when Next = ASCII.LF;
         Append (Line, Next);
      end loop;
   exception
      when Ada.IO_Exceptions.End_Error =>
         null;
   end Next_Line;

   --  The bytes of a file.

   function Contents (Name : String) return String is
      Length : constant Natural := Natural (Ada.Directories.Size (Name));
      subtype Text is String (1 .. Length);
      package Text_Files is new Ada.Direct_IO (Text);
      File   : Text_Files.File_Type;
      Result : Text;
   begin
      Text_Files.Open (File, Text_Files.In_File, Name);
      Text_Files.Read (File, Result);
      Text_Files.Close (File);
      return Result;
   end Contents;

   --  Prints text that has its own line feeds.

   procedure Print (Text : String) is
   begin
      if Text'Length > 0 and then Text (Text'Last) = ASCII.LF then
         Put_Line (Text (Text'First .. Text'Last - 1));
      else
         Put (Text);
      end if;
   end Print;

   --  Asks first for the count, then for the list.

   generic
      type Item is private;
      type Item_Array is array (Positive range <>) of Item;
      with procedure Ask
        (Self : in out RBC.Desk; Found : in out Item_Array; Count : out Natural; Code : out Status);
      with procedure Print (One : Item);
   procedure Print_All;

   procedure Print_All is
      None  : Item_Array (1 .. 0);
      Count : Natural;
      Code  : Status;
   begin
      Ask (Self, None, Count, Code);
      Must (Code);
      declare
         Found : Item_Array (1 .. Count);
      begin
         Ask (Self, Found, Count, Code);
         Must (Code);
         for One of Found loop
            Print (One);
         end loop;
      end;
   end Print_All;

   function Image (Value : Way) return String is
     (case Value is when Down => "down", when Up => "up", when Both => "both");

   function Image (Line, From, To : Unsigned_32; Between : String) return String is
     (Image (Line) & Between & Image (From) & "-" & Image (To));

   procedure Print (One : Train) is
   begin
      Put_Line
        ("train " & Image (One.Engine) & ": length " & Image (One.Length) & ", stamp " & Image (One.Stamp)
         & (if One.Placed = 1
            then ", line " & Image (One.Line, One.From, One.To, ", ") & ", facing " & Image (One.Facing)
            else ", no place")
         & ", holds " & Image (One.Stops) & " stop and " & Image (One.Restrictions) & " restriction identifiers");
   end Print;

   procedure Print (One : Stop_Segment) is
   begin
      Put_Line ("stop " & Image (One.Number) & ": " & Image (One.Line, One.From, One.To, ":"));
   end Print;

   procedure Print (One : Active_Restriction) is
   begin
      Put_Line
        ("restriction " & Image (One.Number) & ": " & Image (One.Line, One.From, One.To, ":") & " " & Image (One.Ways)
         & " " & Image (One.Speed) & " " & Image (One.Front));
   end Print;

   procedure Print (One : Outstanding_Entry) is
      Kind : constant String :=
        (case One.Kind is
            when Conditional_Stop          => "conditional stop " & Image (One.Number),
            when Unconditional_Stop        => "unconditional stop " & Image (One.Number),
            when Told_Restriction          => "restriction " & Image (One.Number),
            when Revocation_Of_Stop        => "revocation of a stop",
            when Revocation_Of_Restriction => "revocation of a restriction");
   begin
      Put_Line
        ("waiting: train " & Image (One.Engine) & ", identifier " & Image (One.Identifier) & ", stamp "
         & Image (One.Stamp) & ", " & Kind);
   end Print;

   procedure Print_Trains is new Print_All (Train, Train_Array, Trains, Print);
   procedure Print_Stops is new Print_All (Stop_Segment, Stop_Segment_Array, Stops, Print);
   procedure Print_Restrictions is new Print_All (Active_Restriction, Active_Restriction_Array, Restrictions, Print);
   procedure Print_Outstanding is new Print_All (Outstanding_Entry, Outstanding_Entry_Array, Outstanding, Print);

   --  The report on a track that is refused. False, and nothing is printed, where it is good.

   function Is_Refused (Track : String) return Boolean is
      None   : String (1 .. 0);
      Result : Report;
      Code   : Status;
   begin
      Check (Track, None, Result, Code);
      Must (Code);
      if Result.Refused /= 0 then
         declare
            Text : String (1 .. Natural (Result.Count));
         begin
            Check (Track, Text, Result, Code);
            Must (Code);
            Print (Text);
         end;
      end if;
      return Result.Refused /= 0;
   end Is_Refused;

   Number : Unsigned_32 := 0;
   Code   : Status;
   Read   : Unbounded_String;
   Found  : Boolean;
   Result : Answer;
   Reason : String (1 .. 512);
   Length : Natural;

begin
   if Argument_Count /= 1 then
      Put_Line (Standard_Error, "usage: desk TRACK < BATCH");
      Set_Exit_Status (2);
      return;
   end if;
   Put_Line ("rules " & Image (Rules));

   declare
      Track : constant String := Contents (Argument (1));
   begin
      if Is_Refused (Track) then
         Set_Exit_Status (1);
         return;
      end if;
      Open (Self, Track, Code);
      Must (Code);
   end;

   loop
      Next_Line (Read, Found);
      exit when not Found;
      declare
         Line : constant String := To_String (Read);
      begin
         Number := Number + 1;
         Feed (Self, Line, Result, Code);
         Must (Code);
         if Result.Refused /= 0 then
            Explain (Self, Line, Reason, Length, Code);
            Must (Code);
            Print ("line " & Image (Number) & ": " & Reason (1 .. Natural'Min (Length, Reason'Length)));
         end if;
      end;
   end loop;
   Print_Trains;
   Print_Stops;
   Print_Restrictions;
   Print_Outstanding;

exception
   when Stopped =>
      Set_Exit_Status (1);
   when Ada.IO_Exceptions.Name_Error =>
      Put_Line (Standard_Error, "desk: the track is unreadable");
      Set_Exit_Status (1);
end Desk;
