--  Prints what `dispatch live --alarms` prints: live TRACK < BATCH
--
--  gnatmake live.adb -largs $(pkg-config --libs rbc)

with Ada.Command_Line;         use Ada.Command_Line;
with Ada.Direct_IO;
with Ada.Directories;
with Ada.IO_Exceptions;
with Ada.Strings.Unbounded;    use Ada.Strings.Unbounded;
with Ada.Text_IO;              use Ada.Text_IO;
with Ada.Text_IO.Text_Streams; use Ada.Text_IO.Text_Streams;
with Ada.Unchecked_Deallocation;
with Interfaces;               use Interfaces;
with RBC;                      use RBC;

procedure Live is

   Stopped : exception;

   type Alarm_List is access Alarm_Array;

   procedure Free is new Ada.Unchecked_Deallocation (Alarm_Array, Alarm_List);

   Self  : Desk;
   Old   : Alarm_List := new Alarm_Array (1 .. 0);
   Count : Natural    := 0; --  of Old

   function Image (Value : Unsigned_32) return String is
      Text : constant String := Unsigned_32'Image (Value);
   begin
      return Text (2 .. Text'Last);
   end Image;

   --  Whether to call again, once, where there was no memory: nothing was changed. A radio block centre frees some
   --  first.

   function Again (Code : Status; Number : Unsigned_32) return Boolean is
   begin
      if Code = No_Memory then
         Put_Line (Standard_Error, "live: no memory at line " & Image (Number) & ", tried again");
      end if;
      return Code = No_Memory;
   end Again;

   procedure Check (Code : Status) is
   begin
      if Code /= Done then
         Put_Line (Standard_Error, "live: fault " & Image (Unsigned_32 (Code)) & " of rbc.h");
         raise Stopped;
      end if;
   end Check;

   --  The next line of standard input, without its line feed; none is found after the last one.

   procedure Next_Line (Line : out Unbounded_String; Found : out Boolean) is
      Next : Character;
   begin
      Line  := Null_Unbounded_String;
      Found := False;
      loop
         Character'Read (Stream (Standard_Input), Next);
         Found := True;
         exit when Next = ASCII.LF;
         Append (Line, Next);
      end loop;
   exception
      when Ada.IO_Exceptions.End_Error =>
         null;
   end Next_Line;

   --  The bytes of a file.

   function Contents (Name : String) return String is
      Length : constant Natural := Natural (Ada.Directories.Size (Name));
      subtype Text is String (1 .. Length);
      package Text_Files is new Ada.Direct_IO (Text);
      File   : Text_Files.File_Type;
      Result : Text;
   begin
      Text_Files.Open (File, Text_Files.In_File, Name);
      Text_Files.Read (File, Result);
      Text_Files.Close (File);
      return Result;
   end Contents;

   procedure Print (Sent : Message; Number : Unsigned_32) is
      Digit : constant String := "0123456789ABCDEF";
   begin
      Put (Image (Sent.Engine) & " " & Image (Number) & " ");
      for Byte of Sent.Bytes (1 .. Natural (Sent.Length)) loop
         Put (Digit (Natural (Byte) / 16 + 1) & Digit (Natural (Byte) mod 16 + 1));
      end loop;
      New_Line;
   end Print;

   procedure Print (Number : Unsigned_32; How : String; What : Alarm) is
      Kind : constant String :=
        (case What.Kind is
            when Place       => "place",
            when Stop        => "stop",
            when Restriction => "restriction",
            when Unanswered  => "answer");
   begin
      Put_Line (Image (Number) & " " & How & " " & Image (What.Engine) & " " & Kind
                & (if What.Kind = Place then "" else " " & Image (What.Number)));
   end Print;

   function "<" (A, B : Alarm) return Boolean is
     (if A.Engine /= B.Engine then A.Engine < B.Engine
      elsif A.Kind /= B.Kind then A.Kind < B.Kind
      else A.Number < B.Number);

   --  The alarms of only one of two lists: both are in order.

   procedure Print_Changes (Number : Unsigned_32; Old, Now : Alarm_Array) is
      A : Positive := Old'First;
      B : Positive := Now'First;
   begin
      while A <= Old'Last or B <= Now'Last loop
         if B > Now'Last or else (A <= Old'Last and then Old (A) < Now (B)) then
            Print (Number, "cleared", Old (A));
            A := A + 1;
         elsif A > Old'Last or else Now (B) < Old (A) then
            Print (Number, "raised", Now (B));
            B := B + 1;
         else
            A := A + 1;
            B := B + 1;
         end if;
      end loop;
   end Print_Changes;

   --  Asks for the alarms until there is room for all, and prints what changed.

   procedure Watch (Number : Unsigned_32) is
      Now   : Alarm_List := new Alarm_Array (1 .. Old'Length);
      Stand : Natural;
      Code  : Status;
   begin
      loop
         Alarms (Self, Now.all, Stand, Code);
         if Again (Code, Number) then
            Alarms (Self, Now.all, Stand, Code);
         end if;
         Check (Code);
         exit when Stand <= Now'Length;
         Free (Now);
         Now := new Alarm_Array (1 .. Stand);
      end loop;
      Print_Changes (Number, Old (1 .. Count), Now (1 .. Stand));
      Free (Old);
      Old   := Now;
      Count := Stand;
   end Watch;

   Number : Unsigned_32 := 0;
   Code   : Status;
   Read   : Unbounded_String;
   Found  : Boolean;
   Result : Answer;

begin
   if Argument_Count /= 1 then
      Put_Line (Standard_Error, "usage: live TRACK < BATCH");
      Set_Exit_Status (2);
      return;
   end if;

   declare
      Track : constant String := Contents (Argument (1));
   begin
      Open (Self, Track, Code);
      if Again (Code, Number) then
         Open (Self, Track, Code);
      end if;
   end;
   Check (Code);

   loop
      Next_Line (Read, Found);
      exit when not Found;
      declare
         Line : constant String := To_String (Read);
      begin
         Number := Number + 1;
         Feed (Self, Line, Result, Code);
         if Again (Code, Number) then
            Feed (Self, Line, Result, Code);
         end if;
         Check (Code);
      end;
      if Result.Refused /= 0 then
         Put_Line (Image (Number) & " refused " & Image (Result.Refused));
      else
         Put_Line (Image (Number) & " ok " & Image (Unsigned_32 (Result.Count)));
      end if;
      for Index in 1 .. Natural (Result.Count) loop
         Print (Sent (Self, Index), Number);
      end loop;
      Watch (Number);
   end loop;
   Free (Old);

exception
   when Stopped =>
      Set_Exit_Status (1);
   when Ada.IO_Exceptions.Name_Error =>
      Put_Line (Standard_Error, "live: the track is unreadable");
      Set_Exit_Status (1);
end Live;
