--  An object is allocated in a full pool where the finalization of its collection has started: Program_Error, and the
--  pool is not asked (RM 4.8, 13.11).
with Ada.Finalization; use Ada.Finalization;
with Ada.Text_IO;      use Ada.Text_IO;
with Block_Pools;      use Block_Pools;

procedure Late is
begin
   declare
      P : Block_Pool (8, 1);

      type T;
      type Ref is access T with Storage_Pool => P;
      type T is new Controlled with null record;

      overriding procedure Finalize (X : in out T);

      procedure Finalize (X : in out T) is
         V : Ref;
      begin
         V := new T;
         Put_Line ("made");
      exception
         when Program_Error =>
            Put_Line ("late");
         when Storage_Error =>
            Put_Line ("SE");
      end Finalize;

      A : Ref;
   begin
      A := new T;
   end;
end Late;
