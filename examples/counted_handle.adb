--  A reference-counted handle (RM 7.6, 13.11.2): each handle that designates an object counts in it. Adjust counts one more behind a copy,
--  Finalize one less, and the last one frees the object. An assignment finalizes its target first, so the object that nothing designates any
--  more is freed in the middle of it.
with Ada.Finalization; use Ada.Finalization;
with Ada.Text_IO;      use Ada.Text_IO;
with Ada.Unchecked_Deallocation;

procedure Counted_Handle is
   type Shared is new Limited_Controlled with record
      Number : Integer := 0;
      Count  : Integer;
   end record;
   type Link is access Shared;

   overriding procedure Finalize (X : in out Shared);

   type Handle is new Controlled with record
      Target : Link;
   end record;

   overriding procedure Adjust (X : in out Handle);
   overriding procedure Finalize (X : in out Handle);

   procedure Free is new Ada.Unchecked_Deallocation (Shared, Link);

   procedure Finalize (X : in out Shared) is
   begin
      Put_Line ("object" & Integer'Image (X.Number) & " goes");
   end Finalize;

   procedure Adjust (X : in out Handle) is
   begin
      if X.Target /= null then
         X.Target.Count := X.Target.Count + 1;
      end if;
   end Adjust;

   procedure Finalize (X : in out Handle) is
   begin
      if X.Target /= null then
         X.Target.Count := X.Target.Count - 1;
         if X.Target.Count = 0 then
            Free (X.Target);
         end if;
      end if;
      --  Finalize may be called again: the handle designates nothing now.
      X.Target := null;
   end Finalize;

   procedure Make (X : in out Handle; Number : Integer) is
   begin
      X.Target := new Shared;
      X.Target.Number := Number;
      X.Target.Count := 1;
   end Make;

   A, B : Handle;
begin
   Make (A, 1);
   declare
      C : Handle := A;
   begin
      Put_Line ("count" & Integer'Image (C.Target.Count));
      Make (B, 2);
      B := C;
      Put_Line ("count" & Integer'Image (C.Target.Count));
   end;
   Put_Line ("count" & Integer'Image (B.Target.Count));
end Counted_Handle;
