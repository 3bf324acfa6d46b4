--  A handle counts the copies of itself: an object that begins with the value of another one is a copy, and is adjusted, before it comes to
--  life (RM 3.3.1, 7.6). Each Finalize takes one back.
with Ada.Finalization; use Ada.Finalization;
with Ada.Text_IO;      use Ada.Text_IO;

procedure Counted_Copies is
   Count : Integer := 0;

   type Handle is new Controlled with record
      Number : Integer := 7;
      Copies : Integer := 0;
   end record;

   overriding procedure Initialize (X : in out Handle);
   overriding procedure Adjust (X : in out Handle);
   overriding procedure Finalize (X : in out Handle);

   procedure Initialize (X : in out Handle) is
   begin
      Count := Count + 1;
      Put_Line ("begin" & Integer'Image (X.Number) & " count" & Integer'Image (Count));
   end Initialize;

   procedure Adjust (X : in out Handle) is
   begin
      Count := Count + 1;
      X.Copies := X.Copies + 1;
      Put_Line ("copy" & Integer'Image (X.Number) & " count" & Integer'Image (Count));
   end Adjust;

   procedure Finalize (X : in out Handle) is
   begin
      Count := Count - 1;
      Put_Line ("end" & Integer'Image (X.Number) & " after" & Integer'Image (X.Copies) & " count" & Integer'Image (Count));
   end Finalize;

   First : Handle;
begin
   First.Number := 1;
   declare
      Second : Handle := First;
      Third  : Handle := Second;
   begin
      Third.Number := 3;
      Put_Line ("held by" & Integer'Image (Count));
   end;
   Put_Line ("left to" & Integer'Image (Count));
end Counted_Copies;
